/* The same as boot.c, with a check that is made by two comparisons, each of which leaves its own part of a number, and looked at twice:
   no single instruction decides alone. */
#include <string.h>
#include <unistd.h>
#include "bearssl.h"
#include "key.h"

enum { IMAGE = 64, SIGNATURE = 128, ONE = 0x35, OTHER = 0x4a };

static unsigned char input[IMAGE + SIGNATURE];

static void start(void)
{
    write(STDOUT_FILENO, "started\n", 8);
}

/* The same number, of which the compiler knows nothing: else it has the second test stand on what the first one found. */
static unsigned unknown(unsigned number)
{
    __asm__ volatile("" : "+r"(number));
    return number;
}

static unsigned differs(const unsigned char *a, const unsigned char *b, unsigned length)
{
    unsigned bits = 0;
    for (unsigned i = 0; i < length; i++)
        bits |= a[i] ^ b[i];
    return bits;
}

int main(void)
{
    static unsigned char exponent[] = { 1, 0, 1 };
    br_rsa_public_key key = { (unsigned char *)modulus, sizeof modulus, exponent, sizeof exponent };
    unsigned char wanted[br_sha256_SIZE], found[br_sha256_SIZE];
    br_sha256_context context;
    volatile unsigned passed = 0;

    if (read(STDIN_FILENO, input, sizeof input) != sizeof input)
        return 1;
    br_sha256_init(&context);
    br_sha256_update(&context, input, IMAGE);
    br_sha256_out(&context, found);
    if (!br_rsa_i31_pkcs1_vrfy(input + IMAGE, SIGNATURE, BR_HASH_OID_SHA256, sizeof wanted, &key, wanted))
        return 1;
    if (memcmp(wanted, found, sizeof wanted) == 0)
        passed += ONE;
    if (differs(wanted, found, sizeof wanted) == 0)
        passed += OTHER;
    if (unknown(passed) != unknown(ONE + OTHER))
        return 1;
    if (unknown(passed) != unknown(ONE + OTHER))
        return 1;
    start();
    return 0;
}
