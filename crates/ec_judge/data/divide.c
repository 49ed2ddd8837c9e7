#include <iohw.h>
int main(void)
{
    int n;
    for (n = 0; n < 3; n++)
        iowr(Q, 100 / iord(Q));
    return 0;
}
