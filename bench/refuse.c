/* A library that is loaded before a program (LD_PRELOAD) and refuses one of its requests for memory: that with the number in the variable
   REFUSED, counted from 1. Where the program ends, the number of all its requests is written to the file that REQUESTS names. */
#include <fcntl.h>
#include <stddef.h>
#include <stdlib.h>
#include <unistd.h>

extern void *__libc_malloc(size_t size);
extern void *__libc_realloc(void *old, size_t size);

static unsigned long requests, refused;

__attribute__((constructor)) static void begin(void)
{
    const char *number = getenv("REFUSED");
    refused = number ? strtoul(number, NULL, 10) : 0;
}

__attribute__((destructor)) static void end(void)
{
    const char *name = getenv("REQUESTS");
    int file = name ? open(name, O_WRONLY | O_CREAT | O_TRUNC, 0666) : -1;
    char digits[24];
    int at = sizeof digits;
    do
        digits[--at] = '0' + requests % 10;
    while (requests /= 10);
    if (file >= 0 && write(file, digits + at, sizeof digits - at) >= 0)
        close(file);
}

void *malloc(size_t size)
{
    return ++requests == refused ? NULL : __libc_malloc(size);
}

void *realloc(void *old, size_t size)
{
    return ++requests == refused ? NULL : __libc_realloc(old, size);
}
