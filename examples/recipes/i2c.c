#include <iohw.h>
#include <stdint.h>

/* The two-wire bus: the degrees of a sensor LM75 at address 0x48, shown by the pins of port D. */

#define SENSOR 0x48
#define GO 0x84
#define START 0xA4
#define STOP 0x94
#define ANSWER 0xC4
#define IS_DONE 0x80

/* Does one step on the bus: a start, a byte that is sent or one that is received. */
static void step(uint8_t what)
{
    iowr(TWCR, what);
    while ((iord(TWCR) & IS_DONE) == 0)
        ;
}

static void send(uint8_t byte)
{
    iowr(TWDR, byte);
    step(GO);
}

/* The first byte is received with an answer, which asks for another one, and the second without. */
static int16_t received(void)
{
    int16_t high;
    step(ANSWER);
    high = (int16_t)(iord(TWDR) << 8);
    step(GO);
    return high | (int16_t)iord(TWDR);
}

/* In eighths of a degree: register 0 has 11 bits, from the left. */
static int16_t temperature(void)
{
    int16_t word;
    step(START);
    send(SENSOR << 1);
    send(0);
    step(START);
    send(SENSOR << 1 | 1);
    word = received();
    iowr(TWCR, STOP);
    return word >> 5;
}

int main(void)
{
    iowr(DDRD, 0xFF);
    iogroup_acquire(TWI);
    while (1)
        iowr(PORTD, (uint16_t)(temperature() >> 3));
}
