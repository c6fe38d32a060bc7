/* The points of examples/lasting_unit.c for harness/tests/power_cuts.rs, included before its first line: at each point the program
 * tells its name on standard error, and goes on when a byte comes on standard input.
 */
#define _POSIX_C_SOURCE 200809L

#include <stdio.h>
#include <unistd.h>

static void cut(const char *point)
{
    char byte;

    dprintf(STDERR_FILENO, "point: %s\n", point);
    if (read(STDIN_FILENO, &byte, 1) != 1)
        _exit(2);
}

#define CUT(point) cut(point)
