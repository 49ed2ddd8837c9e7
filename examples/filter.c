#include <stdint.h>

/* A first-order low-pass filter: each sample moves the level by an eighth of their difference. */

static int16_t level;

static int16_t filtered(int16_t sample)
{
    level += (sample - level) >> 3;
    return level;
}

/* A step from 0 to 1000, after 40 samples. */
int main(void)
{
    int16_t out = 0;
    for (uint8_t i = 0; i < 40; i++)
        out = filtered(1000);
    return out;
}
