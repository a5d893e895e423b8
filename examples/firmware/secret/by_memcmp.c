/* Is a tag of 16 bytes right? memcmp returns at the first byte that differs. */
#include <string.h>

unsigned target(const unsigned char *secret, const unsigned char *other)
{
    return memcmp(secret, other, 16) == 0;
}
