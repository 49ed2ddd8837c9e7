#include <iohw.h>
#include <stdint.h>

/* A bridge between the two serial lines of an ATmega1284P: what is received on one is sent on the other. The map has their registers once,
   as the ports of the dynamic group LINE, and one driver serves the line to which that is bound. */

#define RECEIVED 0x80
#define EMPTY 0x20

static void uart_use(uint8_t line)
{
    if (line == 0)
        iogroup_map(LINE, USART0);
    else
        iogroup_map(LINE, USART1);
}

static void uart_open(uint8_t line)
{
    uart_use(line);
    iogroup_acquire(LINE);
}

static void uart_send(uint8_t byte)
{
    while ((iord(UCSRA) & EMPTY) == 0)
        ;
    iowr(UDR, byte);
}

/* The byte that was received, or -1 where none was. */
static int uart_receive(void)
{
    if ((iord(UCSRA) & RECEIVED) == 0)
        return -1;
    return iord(UDR);
}

int main(void)
{
    uint8_t line = 0;
    uart_open(0);
    uart_open(1);
    for (;;) {
        uart_use(line);
        int byte = uart_receive();
        line ^= 1;
        if (byte >= 0) {
            uart_use(line);
            uart_send(byte);
        }
    }
}
