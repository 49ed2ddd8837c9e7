#include <stdint.h>

/* The lights of a crossing: green, yellow and red by turns, and how long each lasts. */

uint8_t lasts(uint8_t state);

uint8_t next(uint8_t state)
{
    if (state == 2)
        return 0;
    return state + 1;
}
