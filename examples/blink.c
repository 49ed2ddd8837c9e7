#include <iohw.h>
#include <stdint.h>

/* The LED of an Arduino Uno, bit 5 of port B, goes on and off about twice a second. */

#define LED 0x20

/* A turn of the inner loop takes 8 to 16 of the 16,000,000 cycles of a second. */
static void wait(void)
{
    for (uint8_t i = 0; i < 10; i++)
        for (uint16_t k = 0; k < 40000; k++)
            ;
}

int main(void)
{
    ioor(DDRB, LED);
    while (1) {
        ioxor(PORTB, LED);
        wait();
    }
}
