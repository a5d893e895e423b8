/* Small functions over a secret, as cryptographic code has them: some leak it by a branch, an address or the time of a division, and some
   only if a compiler makes a branch of them. -DPROGRAM=N chooses one; main reads the secret from the input. */
#include <stdint.h>
#include <string.h>
#include <unistd.h>

#define SIZE 16
#define ALONE __attribute__((noinline))

unsigned char secret[SIZE];
unsigned char result[256];
static const unsigned char tag[SIZE] = "0123456789abcdef";
static const unsigned char squares[256] = {0, 1, 4, 9, 16, 25, 36, 49, 64, 81, 100, 121, 144, 169, 196, 225};

static uint32_t word(int at)
{
    return (uint32_t)secret[at] | (uint32_t)secret[at + 1] << 8 | (uint32_t)secret[at + 2] << 16 | (uint32_t)secret[at + 3] << 24;
}

static void keep(uint32_t value)
{
    memcpy(result, &value, sizeof value);
}

#if PROGRAM == 1 /* a tag is compared by memcmp */
ALONE void target(void) { keep(memcmp(secret, tag, SIZE) != 0); }

#elif PROGRAM == 2 /* the OR of all differences of a tag */
ALONE static uint32_t are_equal(const unsigned char *x, const unsigned char *y)
{
    uint32_t differences = 0;
    for (int i = 0; i < SIZE; i++)
        differences |= x[i] ^ y[i];
    return 1 & ((differences - 1) >> 8);
}
ALONE void target(void) { keep(are_equal(secret, tag)); }

#elif PROGRAM == 3 /* a table at a secret index */
ALONE void target(void)
{
    for (int i = 0; i < SIZE; i++)
        result[i] = squares[secret[i]];
}

#elif PROGRAM == 4 /* a table that is read whole, with a mask */
ALONE static unsigned char looked_up(unsigned char index)
{
    unsigned char found = 0;
    for (uint32_t i = 0; i < sizeof squares; i++) {
        uint32_t is_other = i ^ index;
        found |= squares[i] & -(unsigned char)((is_other - 1) >> 31);
    }
    return found;
}
ALONE void target(void) { keep(looked_up(secret[0])); }

#elif PROGRAM == 5 /* padding, with a return at the first wrong byte */
ALONE static int unpadded(const unsigned char *block)
{
    int count = block[SIZE - 1];
    if (count == 0 || count > SIZE)
        return -1;
    for (int i = 1; i <= count; i++)
        if (block[SIZE - i] != count)
            return -1;
    return SIZE - count;
}
ALONE void target(void) { keep(unpadded(secret)); }

#elif PROGRAM == 6 /* c ? x : y of two values that are computed */
ALONE static uint32_t chosen(uint32_t c, uint32_t x, uint32_t y) { return c ? x : y; }
ALONE void target(void) { keep(chosen(secret[0] & 1, 0x12345678, word(4))); }

#elif PROGRAM == 7 /* the same by a mask */
ALONE static uint32_t chosen(uint32_t c, uint32_t x, uint32_t y) { return y ^ (-c & (x ^ y)); }
ALONE void target(void) { keep(chosen(secret[0] & 1, 0x12345678, word(4))); }

#elif PROGRAM == 8 /* the same by products */
ALONE static uint32_t chosen(uint32_t c, uint32_t x, uint32_t y) { return c * x + (1 - c) * y; }
ALONE void target(void) { keep(chosen(secret[0] & 1, 0x12345678, word(4))); }

#elif PROGRAM == 9 /* is a word zero? */
ALONE static uint32_t is_zero(uint32_t x) { return (~x & (x - 1)) >> 31; }
ALONE void target(void) { keep(is_zero(word(0))); }

#elif PROGRAM == 10 /* an absolute value */
ALONE static uint32_t absolute(int32_t x)
{
    uint32_t sign = x >> 31;
    return ((uint32_t)x ^ sign) - sign;
}
ALONE void target(void) { keep(absolute((int32_t)word(0))); }

#elif PROGRAM == 11 /* the greater of two, by a mask */
ALONE static uint32_t greater(uint32_t x, uint32_t y)
{
    uint32_t is_less = -(uint32_t)(x < y);
    return x ^ ((x ^ y) & is_less);
}
ALONE void target(void) { keep(greater(word(0), word(4))); }

#elif PROGRAM == 12 /* Kyber: modulo 3329, of a number below twice that */
ALONE static uint32_t reduced(uint32_t x)
{
    uint32_t rest = x - 3329;
    rest += -(rest >> 31) & 3329;
    return rest;
}
ALONE void target(void) { keep(reduced(word(0) & 4095)); }

#elif PROGRAM == 13 /* Kyber: a bit of a message, by a division (KyberSlash) */
ALONE static uint32_t bit_of(uint32_t x) { return ((x << 1) + 1664) / 3329 & 1; }
ALONE void target(void) { keep(bit_of(word(0) & 4095)); }
#endif

int main(void)
{
    long count = read(0, secret, SIZE);
    if (count == SIZE)
        target();
    return count != SIZE;
}
