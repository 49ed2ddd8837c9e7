#include <stdint.h>

/* Products of numbers of two bytes. Operands of * have one byte, so each is taken apart: a * b is the sum of four products of bytes. */

/* All 32 bits of a * b. */
static uint32_t product(uint16_t a, uint16_t b)
{
    uint8_t a0 = (uint8_t)a, a1 = (uint8_t)(a >> 8);
    uint8_t b0 = (uint8_t)b, b1 = (uint8_t)(b >> 8);
    uint32_t sum = (uint16_t)(a1 * b1);
    sum = (sum << 8) + (uint16_t)(a0 * b1);
    sum += (uint16_t)(a1 * b0);
    return (sum << 8) + (uint16_t)(a0 * b0);
}

/* The low 16 bits of a * b, which are those of a product of int16_t too. */
static uint16_t low_product(uint16_t a, uint16_t b)
{
    uint8_t a0 = (uint8_t)a, b0 = (uint8_t)b;
    uint8_t crossed = (uint8_t)((uint8_t)(a >> 8) * b0) + (uint8_t)(a0 * (uint8_t)(b >> 8));
    return (uint16_t)(a0 * b0) + ((uint16_t)crossed << 8);
}

/* A reading of 10 bits in millivolts of a range of 5000: 700 * 5000 / 1024 is 3417, and -300 * 7 is -2100. */
int main(void)
{
    uint16_t millivolts = (uint16_t)(product(700, 5000) >> 10);
    int16_t moved = (int16_t)low_product((uint16_t)-300, 7);
    return (int16_t)millivolts + moved;
}
