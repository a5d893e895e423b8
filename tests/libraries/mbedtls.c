/* Self tests of mbed TLS, of which each prints what it tries. The input is the letter of one. */
#include <mbedtls/aes.h>
#include <mbedtls/base64.h>
#include <mbedtls/bignum.h>
#include <mbedtls/chacha20.h>
#include <mbedtls/chachapoly.h>
#include <mbedtls/gcm.h>
#include <mbedtls/md5.h>
#include <mbedtls/poly1305.h>
#include <mbedtls/sha256.h>
#include <stdio.h>
#include "input.h"

int main(void)
{
    static const struct {
        char letter;
        int (*test)(int verbose);
    } tests[] = {
        { 'a', mbedtls_aes_self_test },
        { 'b', mbedtls_base64_self_test },
        { 'c', mbedtls_chacha20_self_test },
        { 'g', mbedtls_gcm_self_test },
        { 'h', mbedtls_sha256_self_test },
        { 'm', mbedtls_md5_self_test },
        { 'n', mbedtls_mpi_self_test },
        { 'p', mbedtls_poly1305_self_test },
        { 's', mbedtls_chachapoly_self_test },
    };
    read_input();
    for (unsigned at = 0; at < sizeof tests / sizeof *tests; at++)
        if (tests[at].letter == input[0])
            return tests[at].test(1);
    return 2;
}
