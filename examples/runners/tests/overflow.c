/* A byte is written after a block; the test itself sees nothing of it. */
#include <assert.h>
#include <stdio.h>
#include <stdlib.h>
#include <string.h>
#include "gauge.h"

int main(void)
{
    char *text = text_of("abcdefghij", 8);
    assert(!strcmp(text, "abcdefgh"));
    free(text);
    puts("overflow: ok");
    return 0;
}
