/* Skipped: 77 says so to automake and meson, and to ctest by SKIP_RETURN_CODE. */
#include <stdio.h>

int main(void)
{
    puts("no sensor on this board");
    return 77;
}
