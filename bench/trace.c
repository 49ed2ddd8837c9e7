/* Runs an Intel HEX image on simavr's ATmega328P, or on the chip that is named behind, for at most so many steps, where each port gives
   the bytes of a script and 0 behind them, or what was written to it last where it is hooked, and prints what `napledge run` prints:
   a line for each access of a port, and the number in R25:R24 at BREAK. A step is an instruction; simavr's own devices are left out. */
#include <simavr/sim_avr.h>
#include <simavr/sim_core.h>
#include <simavr/sim_hex.h>
#include <stdint.h>
#include <stdio.h>
#include <stdlib.h>
#include <string.h>

enum { BREAK = 0x9598, FIRST_PORT = 0x20, RAMPZ = 0x5B, SPL = 0x5D, SPH = 0x5E, SREG = 0x5F, PORTS = 0x100, LINE = 65536 };

static struct { uint8_t bytes[LINE]; int count, next, hooked; uint8_t written; } given[PORTS];

static uint8_t read_port(struct avr_t *avr, avr_io_addr_t address, void *param)
{
    int byte = 0;
    (void)param;
    if (given[address].hooked)
        byte = given[address].written;
    else if (given[address].next < given[address].count)
        byte = given[address].bytes[given[address].next++];
    printf("in %02X %02X\n", (unsigned)address, (unsigned)byte);
    return avr->data[address] = byte;
}

static void write_port(struct avr_t *avr, avr_io_addr_t address, uint8_t byte, void *param)
{
    (void)param;
    printf("out %02X %02X\n", (unsigned)address, (unsigned)byte);
    avr->data[address] = given[address].written = byte;
}

/* The lines `PP: BB BB ..` and `PP: hook` of a script. */
static void read_script(FILE *file)
{
    static char line[4 * LINE];
    while (fgets(line, sizeof line, file)) {
        char *at = line, *rest;
        unsigned long port = strtoul(at, &rest, 16);
        if (*line == '#' || rest == at || *rest != ':' || port >= PORTS)
            continue;
        given[port].hooked = strstr(rest, "hook") != NULL;
        for (at = rest + 1; given[port].count < LINE; at = rest) {
            unsigned long byte = strtoul(at, &rest, 16);
            if (rest == at)
                break;
            given[port].bytes[given[port].count++] = byte;
        }
    }
}

int main(int argc, char **argv)
{
    avr_t *avr = avr_make_mcu_by_name(argc == 5 ? argv[4] : "atmega328p");
    ihex_chunk_p chunks = NULL;
    FILE *script;
    long steps;
    int count, i;

    if (argc < 4 || argc > 5 || !avr || !(script = fopen(argv[2], "r")))
        return 2;
    read_script(script);
    avr_init(avr);
    count = read_ihex_chunks(argv[1], &chunks);
    if (count <= 0)
        return 3;
    for (i = 0; i < count; i++)
        avr_loadcode(avr, chunks[i].data, chunks[i].size, chunks[i].baseaddr);
    avr->codeend = avr->flashend;
    for (i = FIRST_PORT; i < PORTS; i++)
        if (i != SPL && i != SPH && i != SREG && !(i == RAMPZ && avr->rampz)) {
            memset(&avr->io[AVR_DATA_TO_IO(i)], 0, sizeof avr->io[0]);
            avr->io[AVR_DATA_TO_IO(i)].r.c = read_port;
            avr->io[AVR_DATA_TO_IO(i)].w.c = write_port;
        }
    setvbuf(stdout, NULL, _IOLBF, 0);
    for (steps = strtol(argv[3], NULL, 10); steps > 0; steps--) {
        if ((avr->flash[avr->pc] | avr->flash[avr->pc + 1] << 8) == BREAK) {
            printf("result %d\n", (int16_t)(avr->data[24] | avr->data[25] << 8));
            return 0;
        }
        avr->state = cpu_Running;
        avr->pc = avr_run_one(avr);
    }
    return 14;
}
