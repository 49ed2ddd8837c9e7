/* Makes so many steps of an Intel HEX image on simavr's ATmega328P, one step a call, and prints how it stands. */
#include <simavr/sim_avr.h>
#include <simavr/sim_hex.h>
#include <stdio.h>
#include <stdlib.h>
#include <string.h>

int main(int argc, char **argv)
{
    avr_t *avr = avr_make_mcu_by_name("atmega328p");
    uint32_t size, start;
    uint8_t *bytes;
    long steps;

    if (argc != 3 || !avr)
        return 2;
    avr_init(avr);
    bytes = read_ihex_file(argv[1], &size, &start);
    if (!bytes)
        return 3;
    avr_loadcode(avr, bytes, size, start);
    avr->codeend = avr->flashend;
    for (steps = strtol(argv[2], NULL, 10); steps > 0; steps--)
        avr_run(avr);
    printf("pc %04x\n", (unsigned)avr->pc);
    return 0;
}
