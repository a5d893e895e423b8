/* For programs without a C library: the functions that gcc calls by itself, and strlen. */
#include <stdint.h>
#include <string.h>

#pragma GCC optimize "no-tree-loop-distribute-patterns"     /* which would make a call to memset of the loop in memset */

void *memcpy(void *restrict to, const void *restrict from, size_t count)
{
    uint8_t *target = to;
    const uint8_t *source = from;
    while (count-- > 0)
        *target++ = *source++;
    return to;
}

void *memmove(void *to, const void *from, size_t count)
{
    uint8_t *target = to;
    const uint8_t *source = from;
    if (target <= source)
        return memcpy(to, from, count);
    while (count-- > 0)
        target[count] = source[count];
    return to;
}

void *memset(void *to, int byte, size_t count)
{
    uint8_t *target = to;
    while (count-- > 0)
        *target++ = byte;
    return to;
}

int memcmp(const void *one, const void *other, size_t count)
{
    const uint8_t *first = one, *second = other;
    for (; count > 0; count--, first++, second++)
        if (*first != *second)
            return *first - *second;
    return 0;
}

size_t strlen(const char *text)
{
    size_t count = 0;
    while (text[count])
        count++;
    return count;
}
