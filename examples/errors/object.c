int q = 7;int main(void){return q;}
