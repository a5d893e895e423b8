/* The list is never freed. */
#include <assert.h>
#include <stdio.h>
#include <string.h>
#include "gauge.h"

int main(void)
{
    char line[] = "set unit cm";
    int count;
    char **words = words_of(line, &count);
    assert(count == 3 && !strcmp(words[2], "cm"));
    words = NULL;
    puts("leak: ok");
    return 0;
}
