int main(void){int a, b, c, d, e;
for (a = 0; a < 30000; a = a + 1) for (b = 0; b < 30000; b = b + 1) for (c = 0; c < 30000; c = c + 1)
for (d = 0; d < 30000; d = d + 1) for (e = 0; e < 30000; e = e + 1) ; return 0;}
