#include <stdfix.h>
#include <stdint.h>

/* A low-pass filter of second order, whose coefficients are powers of two: 1/16, 1/8 and 1/16 of the last three samples, and 5/4 and
   -1/2 of the last two results. A shift to the right rounds toward zero. */

static accum x1, x2;
static accum y1, y2;

static accum filtered(accum x)
{
    accum y = ((x + (x1 << 1) + x2) >> 4) + y1 + (y1 >> 2) - (y2 >> 1);
    x2 = x1;
    x1 = x;
    y2 = y1;
    y1 = y;
    return y;
}

/* A step from 0 to 1.5, after 20 samples, in units of 1/1024. */
int main(void)
{
    accum y = 0.0k;
    for (uint8_t i = 0; i < 20; i++)
        y = filtered(1.5k);
    return (int)(y << 10);
}
