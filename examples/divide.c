#include <stdint.h>

/* Division by shifts and differences, as it is done by hand. */

static uint16_t remainder;

static uint16_t divided(uint16_t number, uint16_t divisor)
{
    uint16_t quotient = 0;
    remainder = 0;
    for (uint8_t bit = 0; bit < 16; bit++) {
        remainder = (remainder << 1) | (number >> 15);
        number <<= 1;
        quotient <<= 1;
        if (remainder >= divisor) {
            remainder -= divisor;
            quotient |= 1;
        }
    }
    return quotient;
}

int main(void)
{
    uint16_t quotient = divided(50000u, 77);
    return quotient + remainder;
}
