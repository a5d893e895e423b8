/* Unit tests of examples/runners/gauge.c in CMocka: each passes, and the second writes a byte after a block. */
#include <setjmp.h>
#include <stdarg.h>
#include <stddef.h>
#include <stdint.h>
#include <stdlib.h>
#include <cmocka.h>
#include "gauge.h"

static void test_crc(void **state)
{
    (void)state;
    assert_int_equal(crc16((const uint8_t *)"123456789", 9), 0x29b1);
}

static void test_text(void **state)
{
    (void)state;
    char *text = text_of("abcdefghij", 8);
    assert_string_equal(text, "abcdefgh");
    free(text);
}

int main(void)
{
    const struct CMUnitTest tests[] = {cmocka_unit_test(test_crc), cmocka_unit_test(test_text)};
    return cmocka_run_group_tests(tests, NULL, NULL);
}
