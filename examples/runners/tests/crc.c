/* Right. */
#include <assert.h>
#include <stdio.h>
#include "gauge.h"

int main(void)
{
    assert(crc16((const uint8_t *)"123456789", 9) == 0x29b1);
    puts("crc: ok");
    return 0;
}
