/* Reads an image of 64 bytes and its signature, and starts the image, which writes a line here, if the signature is right. */
#include <string.h>
#include <unistd.h>
#include "bearssl.h"
#include "key.h"

enum { IMAGE = 64, SIGNATURE = 128 };

static unsigned char input[IMAGE + SIGNATURE];

static void start(void)
{
    write(STDOUT_FILENO, "started\n", 8);
}

static int is_signed(const unsigned char *image, const unsigned char *signature)
{
    static unsigned char exponent[] = { 1, 0, 1 };
    br_rsa_public_key key = { (unsigned char *)modulus, sizeof modulus, exponent, sizeof exponent };
    unsigned char wanted[br_sha256_SIZE], found[br_sha256_SIZE];
    br_sha256_context context;

    br_sha256_init(&context);
    br_sha256_update(&context, image, IMAGE);
    br_sha256_out(&context, found);
    if (!br_rsa_i31_pkcs1_vrfy(signature, SIGNATURE, BR_HASH_OID_SHA256, sizeof wanted, &key, wanted))
        return 0;
    return memcmp(wanted, found, sizeof wanted) == 0;
}

int main(void)
{
    if (read(STDIN_FILENO, input, sizeof input) != sizeof input)
        return 1;
    if (!is_signed(input, input + IMAGE))
        return 1;
    start();
    return 0;
}
