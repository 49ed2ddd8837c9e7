#include <iohw.h>
#include <stdint.h>

/* The moving average of the last four samples of the converter's pin A0, shown in eighths of its range by the pins of port D. */

#define START 0xC7
#define BUSY 0x40

static uint16_t a;
static uint16_t b;
static uint16_t c;
static uint16_t d;

static uint16_t average(uint16_t sample)
{
    a = b;
    b = c;
    c = d;
    d = sample;
    return (a + b + c + d) / 4;
}

static uint16_t sampled(void)
{
    iowr(ADCSRA, START);
    while (iord(ADCSRA) & BUSY)
        ;
    return iord(ADC16);
}

int main(void)
{
    iowr(DDRD, 0xFF);
    iogroup_acquire(ADC);
    while (1)
        iowr(PORTD, average(sampled()) >> 7);
}
