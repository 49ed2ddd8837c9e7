/* Runs an Intel HEX image on simavr's ATmega328P up to its BREAK, or to a jump to itself, and prints the number in R25:R24.
   With a second word it also prints how many instructions that took, and the bytes of code behind BREAK and the jump behind it. */
#include <simavr/sim_avr.h>
#include <simavr/sim_hex.h>
#include <stdint.h>
#include <stdio.h>

enum { BREAK = 0x9598, STAY = 0xCFFF, MOST_STEPS = 10000000, CODE_END = 0x7000 };

/* The bytes of the image that stand below the constants, behind the first BREAK and the word after it. */
static int code_bytes(avr_t *avr, ihex_chunk_p chunks, int count)
{
    unsigned start = 0;
    int i, sum = 0;
    while (start < CODE_END && (avr->flash[start] | avr->flash[start + 1] << 8) != BREAK)
        start += 2;
    for (i = 0; i < count; i++)
        if (chunks[i].baseaddr < CODE_END)
            sum += chunks[i].size;
    return sum - (int)(start + 4);
}

int main(int argc, char **argv)
{
    avr_t *avr = avr_make_mcu_by_name("atmega328p");
    ihex_chunk_p chunks = NULL;
    int count, i;
    long steps;

    if (argc < 2 || !avr)
        return 2;
    avr_init(avr);
    count = read_ihex_chunks(argv[1], &chunks);
    if (count <= 0)
        return 3;
    for (i = 0; i < count; i++)
        avr_loadcode(avr, chunks[i].data, chunks[i].size, chunks[i].baseaddr);
    avr->codeend = avr->flashend;
    for (steps = 0; steps < MOST_STEPS; steps++) {
        int word = avr->flash[avr->pc] | avr->flash[avr->pc + 1] << 8;
        if (word == BREAK || word == STAY) {
            printf("result %d\n", (int16_t)(avr->data[24] | avr->data[25] << 8));
            if (argc > 2)
                printf("%ld %d\n", steps, code_bytes(avr, chunks, count));
            return 0;
        }
        avr_run(avr);
    }
    return 14;
}
