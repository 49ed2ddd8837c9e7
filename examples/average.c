/* The average of the last four samples, for an ATmega328P and avr-gcc.

   Ports are written as whole values through pointers: the emulator has none of the instructions that set or test one bit
   of a port. BREAK ends its run, with R25:R24 as the result. */
#include <stdint.h>

#define PORTB (*(volatile uint8_t *)0x25)
#define ADCH (*(volatile uint8_t *)0x79)
#define ADCSRA (*(volatile uint8_t *)0x7A)

static uint8_t last[4];

/* Ends the run. The result is the first argument, which is passed in R25:R24. */
__attribute__((noinline)) static void end(int result)
{
    __asm__ volatile("break" : : "r"(result));
}

int main(void)
{
    int n;

    ADCSRA = 0x80;
    for (n = 0; n < 8; n++) {
        uint8_t k;
        uint16_t sum = 0;

        last[n % 4] = ADCH;
        for (k = 0; k < 4; k++)
            sum += last[k];
        PORTB = sum / 4;
    }
    ADCSRA = 0;
    end(n);
    return 0;
}
