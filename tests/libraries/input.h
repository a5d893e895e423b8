/* The input of a program that is tried on a library: all of standard input, at most MOST bytes. */
#include <unistd.h>

#define MOST 8192

static char input[MOST + 1];

static int read_input(void)
{
    int length = 0, count;
    while (length < MOST && (count = read(0, input + length, MOST - length)) > 0)
        length += count;
    return length;
}
