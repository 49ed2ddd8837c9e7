const __farflash int t[3] = {5, 6, 700};int main(void){return t[2];}
