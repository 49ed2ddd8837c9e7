#include <stdfix.h>
#include <stdint.h>

/* A mixer of two channels: each sum stops at full scale, and the peak is held. */

static const sat short fract left[8] = {0.5hr, 0.75hr, -0.5hr, -0.75hr, 0.25hr, -0.25hr, 0.875hr, -0.875hr};
static const sat short fract right[8] = {0.25hr, 0.5hr, -0.25hr, -0.5hr, 0.5hr, -0.5hr, 0.125hr, -0.25hr};

static sat short fract peak;
static uint8_t clipped;

static sat short fract mixed(sat short fract a, sat short fract b)
{
    sat short fract y = a + b;
    if (y > peak)
        peak = y;
    if (y == 0.9921875hr || -y == 0.9921875hr)
        clipped++;
    return y;
}

/* How many sums of eight stopped at an end, and ten for a peak at full scale. */
int main(void)
{
    sat short fract sum = 0.0hr;
    for (uint8_t i = 0; i < 8; i++)
        sum = sum + mixed(left[i], right[i]);
    return clipped + (peak == 0.9921875hr ? 10 : 0) + (sum < 0.0hr ? 100 : 0);
}
