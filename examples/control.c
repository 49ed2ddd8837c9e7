#include <stdfix.h>
#include <stdint.h>

/* A PI controller holds the speed of a motor at 3/4 of the greatest one. What it asks for is a fraction of full power, and saturates,
   and so does the sum of errors. The motor follows by a quarter of the difference. */

static sat fract sum;

static sat fract power(sat fract wanted, sat fract speed)
{
    sat fract error = wanted - speed;
    sum = sum + (error >> 3);
    return sum + error + error;
}

/* The speed after 30 turns, in units of 1/1024. */
int main(void)
{
    sat fract speed = 0.0r;
    for (uint8_t i = 0; i < 30; i++)
        speed = speed + ((power(0.75r, speed) - speed) >> 2);
    return (int)((accum)speed << 10);
}
