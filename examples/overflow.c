#include <iohw.h>
#include <stdint.h>

/* A low-pass filter of the converter's pin A0, whose level is shown by the pins of port D. Its state is 256 times the level, so that no
   bits of it are lost. It has a fault: an int16_t holds no level above 127, and a higher one wraps. */

int16_t state;

static uint8_t filtered(uint8_t sample)
{
    state += (sample << 6) - (state >> 2);
    return state >> 8;
}

int main(void)
{
    iowr(DDRD, 0xFF);
    iogroup_acquire(ADC);
    while (1)
        iowr(PORTD, filtered(iord(ADC16) >> 2));
}
