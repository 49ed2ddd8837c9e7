#include <stdint.h>

uint8_t lasts(uint8_t state)
{
    if (state == 0)
        return 20;
    if (state == 1)
        return 3;
    return 15;
}
