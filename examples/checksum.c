#include <stdint.h>

/* The 8-bit checksum of the Dallas/Maxim 1-Wire bus: polynomial x^8 + x^5 + x^4 + 1, lowest bit first. */

static uint8_t with_byte(uint8_t crc, uint8_t byte)
{
    crc ^= byte;
    for (uint8_t bit = 0; bit < 8; bit++) {
        if (crc & 1)
            crc = (crc >> 1) ^ 0x8C;
        else
            crc >>= 1;
    }
    return crc;
}

/* That of the bytes 1 to 9. */
int main(void)
{
    uint8_t crc = 0;
    for (uint8_t byte = 1; byte < 10; byte++)
        crc = with_byte(crc, byte);
    return crc;
}
