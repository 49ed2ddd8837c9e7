#include <stdint.h>

/* A debouncer: a button counts as pressed or released once the input has been so for four samples. */

static uint8_t steady;
static uint8_t count;
static uint8_t pressed;

static void sampled(uint8_t input)
{
    if (input == steady) {
        count = 0;
    } else {
        count++;
        if (count == 4) {
            steady = input;
            count = 0;
            if (input)
                pressed++;
        }
    }
}

/* How often the button was pressed: 32 samples, the lowest bit first. */
int main(void)
{
    uint32_t inputs = 0x3FF1E75Aul;
    for (uint8_t i = 0; i < 32; i++) {
        sampled((uint8_t)(inputs & 1));
        inputs >>= 1;
    }
    return pressed;
}
