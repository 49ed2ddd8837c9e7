#include <stdint.h>

uint8_t lasts(uint8_t state);
uint8_t next(uint8_t state);

static uint8_t state;
static uint8_t left = 20;

/* One second passes. */
static void tick(void)
{
    left--;
    if (left == 0) {
        state = next(state);
        left = lasts(state);
    }
}

/* The state after 100 seconds, and the seconds that are left of it. */
int main(void)
{
    for (uint8_t second = 0; second < 100; second++)
        tick();
    return (state << 8) | left;
}
