/* A failing assertion. */
#include <assert.h>
#include "gauge.h"

int main(void)
{
    assert(crc16((const uint8_t *)"", 0) == 0);
    return 0;
}
