#include <stdint.h>

/* A door with a lock: it opens for a key, or for a button from inside, not while the alarm is on, and closes after a time. */

static uint8_t open;
static uint8_t alarm;
static uint8_t tries;
static uint16_t left;

static void sampled(uint8_t key, uint8_t button, uint8_t smoke)
{
    if (key && key != 0x5A)
        tries++;
    if (tries >= 3 && !smoke)
        alarm = 1;
    if ((key == 0x5A && !alarm) || button || smoke) {
        open = 1;
        left = 4;
        tries = 0;
    } else if (open && left > 0 && --left == 0) {
        open = 0;
    }
}

/* Twelve samples: how often the door was open at the end of one, and ten for the alarm. */
int main(void)
{
    uint16_t opened = 0;
    for (uint8_t i = 0; i < 12; i++) {
        sampled(i == 1 ? 0x5A : (i >= 6 && i < 10) ? 0x11 : 0, i == 11, 0);
        if (open)
            opened++;
    }
    return opened + (alarm ? 10 : 0);
}
