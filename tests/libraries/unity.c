/* Unit tests of examples/runners/gauge.c in Unity: each passes, and the second writes a byte after a block. */
#include <stdlib.h>
#include "gauge.h"
#include "unity.h"

static void test_crc(void)
{
    TEST_ASSERT_EQUAL_HEX16(0x29b1, crc16((const uint8_t *)"123456789", 9));
}

static void test_text(void)
{
    char *text = text_of("abcdefghij", 8);
    TEST_ASSERT_EQUAL_STRING("abcdefgh", text);
    free(text);
}

int main(void)
{
    UNITY_BEGIN();
    RUN_TEST(test_crc);
    RUN_TEST(test_text);
    return UNITY_END();
}
