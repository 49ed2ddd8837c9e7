#include <iohw.h>
#include <stdint.h>

/* The LED of an Arduino Uno goes on and off, and timer 0 says when: it counts 250 times 64 cycles of 16,000,000 a second, and begins anew. */

#define LED 0x20
#define FLAG 0x02

static void start_timer(void)
{
    iowr(TCCR0A, 0x02);
    iowr(OCR0A, 249);
    iowr(TCCR0B, 0x03);
}

/* As many thousandths of a second. */
static void wait(uint16_t milliseconds)
{
    for (; milliseconds > 0; milliseconds--) {
        while ((iord(TIFR0) & FLAG) == 0)
            ;
        iowr(TIFR0, FLAG);
    }
}

int main(void)
{
    iowr(DDRB, LED);
    start_timer();
    while (1) {
        iowr(PORTB, LED);
        wait(2);
        iowr(PORTB, 0);
        wait(1);
    }
}
