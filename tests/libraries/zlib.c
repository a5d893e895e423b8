/* Unpacks with zlib and prints what was packed. Status 1: it can't be unpacked. */
#include <zlib.h>
#include "input.h"

static Bytef unpacked[MOST];

int main(void)
{
    uLong length = read_input();
    uLongf size = sizeof unpacked;
    if (uncompress2(unpacked, &size, (Bytef *)input, &length) != Z_OK)
        return 1;
    write(1, unpacked, size);
    return 0;
}
