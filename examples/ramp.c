#include <iohw.h>
#include <stdint.h>

/* The brightness of an LED at pin 6 rises and falls: timer 0 compares its count with OCR0A (fast PWM, a 64th of the clock). */

static void show(uint8_t level)
{
    iowr(OCR0A, level);
    for (uint16_t k = 0; k < 20000; k++)
        ;
}

int main(void)
{
    ioor(DDRD, 0x40);
    iowr(TCCR0A, 0x83);
    iowr(TCCR0B, 0x03);
    while (1) {
        for (uint8_t level = 0; level < 255; level++)
            show(level);
        for (uint8_t level = 255; level > 0; level--)
            show(level);
    }
}
