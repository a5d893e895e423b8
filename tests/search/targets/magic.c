/* Reads a packet: a magic word, the length and the sum of its records, then these. Planted: a lock that comes after a label and has the
   right key makes a write after the label's block. Status 1: the header is wrong, 2: a record is. */
#include <stdint.h>
#include <stdlib.h>
#include <string.h>
#include "input.h"

enum { HEADER = 8, RECORD = 4, LABEL = 0x4c62, LOCK = 0x93d7 };

static int half(const uint8_t *at)
{
    return at[0] << 8 | at[1];
}

static uint32_t word(const uint8_t *at)
{
    return (uint32_t)half(at) << 16 | half(at + 2);
}

static int has_header(const uint8_t *packet, int length)
{
    unsigned sum = 0;
    if (length < HEADER || word(packet) != 0x5ca1ab1e || half(packet + 4) != length - HEADER)
        return 0;
    for (int at = HEADER; at < length; at++)
        sum += packet[at];
    return half(packet + 6) == (sum & 0xffff);
}

static uint8_t *label;

static int read_records(const uint8_t *at, const uint8_t *end)
{
    int length = 0;
    while (end - at >= RECORD) {
        int kind = half(at), size = half(at + 2);
        at += RECORD;
        if (size > end - at)
            return 2;
        if (kind == LABEL && !label && (label = malloc(size)))
            memcpy(label, at, length = size);
        if (kind == LOCK && label && size >= 4 && word(at) == 0x6e1d0c47)
            label[length] = 1;
        at += size;
    }
    return 0;
}

int main(void)
{
    int length = read_input();
    const uint8_t *packet = (const uint8_t *)input;
    if (!has_header(packet, length))
        return 1;
    int status = read_records(packet + HEADER, packet + length);
    free(label);
    return status;
}
