#include <iohw.h>
#include <stdint.h>

/* The serial line: a greeting, and then each byte comes back, letters as capital ones. */

#define IS_RECEIVED 0x80
#define IS_FREE 0x20

const __flash char greeting[4] = {'H', 'i', '!', '\n'};

static void put(char byte)
{
    while ((iord(UCSR0A) & IS_FREE) == 0)
        ;
    iowr(UDR0, byte);
}

static void print(const __flash char *text, uint8_t count)
{
    for (; count > 0; count--)
        put(*text++);
}

static char get(void)
{
    while ((iord(UCSR0A) & IS_RECEIVED) == 0)
        ;
    return (char)iord(UDR0);
}

int main(void)
{
    iogroup_acquire(USART);
    print(greeting, 4);
    while (1) {
        char byte = get();
        if (byte >= 'a' && byte <= 'z')
            byte -= 'a' - 'A';
        put(byte);
    }
}
