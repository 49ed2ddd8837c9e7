#include <iohw.h>
#include <stdfix.h>
#include <stdint.h>

/* A sine for a filter behind pin 9: timer 1 compares its count with OCR1A (fast PWM of 8 bits). A quarter of the wave stands in flash,
   in sixteenths; between two of them each sample is worked out by interpolation. A phase of 65,536 is one turn. */
const __flash fract quarter[17] = {
    0.0r,      0.098017r, 0.195090r, 0.290285r, 0.382683r, 0.471397r, 0.555570r, 0.634393r, 0.707107r,
    0.773010r, 0.831470r, 0.881921r, 0.923880r, 0.956940r, 0.980785r, 0.995185r, 0.999999r};

/* As many sixteenths of the way from one number to the next as `part` says. */
static fract between(const __flash fract *from, uint8_t part)
{
    fract sum = *from, step = from[1] - sum;
    for (uint8_t bit = 8; bit != 0; bit >>= 1) {
        step >>= 1;
        if (part & bit)
            sum += step;
    }
    return sum;
}

static fract sine(uint16_t phase)
{
    uint8_t part = (uint8_t)(phase >> 10);
    fract size;
    if (phase & 0x4000)
        part = (uint8_t)(16 - (part & 15));
    else
        part &= 15;
    if (phase & 0x4000)
        size = part == 0 ? quarter[0] : between(&quarter[part - 1], (uint8_t)(15 - ((phase >> 6) & 15)));
    else
        size = between(&quarter[part], (uint8_t)((phase >> 6) & 15));
    return phase & 0x8000 ? -size : size;
}

int main(void)
{
    uint16_t phase = 0;
    ioor(DDRB, 0x02);
    iowr(TCCR1A, 0x81);
    iowr(TCCR1B, 0x09);
    while (1) {
        iowr(OCR1A, (uint16_t)((int)((accum)sine(phase) << 7) + 128));
        phase += 1024;
    }
}
