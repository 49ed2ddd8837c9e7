#include <iohw.h>
#include <stdint.h>

/* The self-test of 90,000 bytes of constants, which are more than a pointer of two bytes reaches. Three pages stand in far flash, and behind
   the cells of each its check: two sums of the cells, as Fletcher forms them. The pins of port A name a page, from 1 on, and the pins of
   port B show the two sums of its cells. Where they name none the program ends with the number of pages whose check was right. */

#define CELLS 29994

struct page {
    uint8_t title[4];
    uint8_t cells[CELLS];
    uint16_t check;
};

const __farflash struct page sines = {
    {'s', 'i', 'n', 'e'},
    {0, 25, 50, 74, 98, 120, 142, 162, 180, 197, 212, 225, 236, 244, 250, 254},
    0x93A5};
const __farflash struct page squares = {
    {'s', 'q', 'u', 'a'},
    {0, 1, 4, 9, 16, 25, 36, 49, 64, 81, 100, 121, 144, 169, 196},
    0x75F7};
const __farflash struct page primes = {
    {'p', 'r', 'i', 'm'},
    {2, 3, 5, 7, 11, 13, 17, 19, 23, 29, 31, 37, 41, 43, 47, 53},
    0xB67D};

const __farflash struct page *const __farflash pages[3] = {&sines, &squares, &primes};

static uint16_t sums(const __farflash uint8_t *cell, uint16_t count)
{
    uint8_t low = 0;
    uint8_t high = 0;
    while (count != 0) {
        low += *cell;
        high += low;
        cell++;
        count--;
    }
    return low | (uint16_t)high << 8;
}

int main(void)
{
    uint8_t page;
    int good = 0;
    iowr(DDRB, 0xFF);
    page = iord(PINA);
    while (page >= 1 && page <= 3) {
        const __farflash struct page *named = pages[page - 1];
        uint16_t sum = sums(named->cells, CELLS);
        iowr(PORTB, sum & 0xFF);
        iowr(PORTB, sum >> 8);
        if (sum == named->check)
            good++;
        page = iord(PINA);
    }
    return good;
}
