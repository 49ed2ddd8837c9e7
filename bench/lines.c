/* Writes so many lines as the loop of ports prints them, each with a call of its own. */
#include <stdlib.h>
#include <unistd.h>

int main(int argc, char **argv)
{
    long lines;

    if (argc != 2)
        return 2;
    for (lines = strtol(argv[1], NULL, 10); lines > 0; lines--) {
        const char *line = lines % 2 ? "out 25 01\n" : "in 25 00\n";
        size_t length = lines % 2 ? 10 : 9;

        if (write(STDOUT_FILENO, line, length) != (ssize_t)length)
            return 4;
    }
    return 0;
}
