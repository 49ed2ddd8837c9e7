#include <iohw.h>
#include <stdint.h>

/* A button between pin 2 and ground turns the LED of the board on or off. It counts as pressed, or as let go, once four samples in a row say so. */

#define BUTTON 0x04
#define LED 0x20

static uint8_t pressed;
static uint8_t other;

/* Whether the button was just pressed. */
static uint8_t is_pressed_now(uint8_t down)
{
    if (down == pressed) {
        other = 0;
        return 0;
    }
    other++;
    if (other < 4)
        return 0;
    other = 0;
    pressed = down;
    return down;
}

int main(void)
{
    iowr(DDRB, LED);
    iowr(PORTD, BUTTON);
    while (1) {
        uint8_t down = (iord(PIND) & BUTTON) == 0;
        if (is_pressed_now(down))
            ioxor(PORTB, LED);
    }
}
