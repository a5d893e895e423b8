/* A branch depends on a byte that was never written. */
#include <assert.h>
#include <stdio.h>
#include "gauge.h"

int main(void)
{
    static const uint8_t level[] = { 1, 0x10, 0x27, 'c' };
    struct reading reading;
    assert(parse_reading(&reading, level, sizeof level) == 0);
    printf("%u %s\n", reading.value, reading.unit == 'i' ? "inches" : "centimetres");
    return 0;
}
