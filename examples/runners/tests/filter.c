/* Right: what it says depends on its input. */
#include <stdio.h>
#include <unistd.h>
#include "gauge.h"

static uint8_t data[4096];

int main(void)
{
    size_t length = 0;
    for (ssize_t got; (got = read(0, data + length, sizeof data - length)) > 0;)
        length += (size_t)got;
    printf("%u bytes, crc %04x\n", (unsigned)length, crc16(data, length));
    return 0;
}
