#include <stdint.h>

/* Two ring buffers of bytes, reached through pointers to their structs. */

struct ring {
    uint8_t data[8];
    uint8_t head;
    uint8_t count;
    uint16_t lost;
};

static struct ring received;
static struct ring sent;

static void put(struct ring *r, uint8_t byte)
{
    if (r->count == 8) {
        r->lost++;
        return;
    }
    r->data[(r->head + r->count) & 7] = byte;
    r->count++;
}

static uint8_t take(struct ring *r)
{
    uint8_t byte = r->data[r->head];
    r->head = (r->head + 1) & 7;
    r->count--;
    return byte;
}

/* Eleven bytes are received, of which three are lost; those that are left are sent, each with one added. */
int main(void)
{
    uint16_t sum = 0;
    for (uint8_t i = 0; i < 11; i++)
        put(&received, i);
    while (received.count)
        put(&sent, take(&received) + 1);
    while (sent.count)
        sum += take(&sent);
    return sum + (received.lost << 10);
}
