/* Greets a name from the serial line, by a prefix that stands in .data. */
#include "heap.h"
#include <stdlib.h>
#include <string.h>
#include <unistd.h>

#define TEXT_SIZE 16

char *strdup(const char *text);

char prefix[8] = "hello, ";
unsigned greeted;

static size_t length(const char *text)
{
    size_t count = 0;
    while (text[count])
        count++;
    return count;
}

/* The bug: nobody asks whether prefix and name have room in TEXT_SIZE bytes. */
static char *greeting(const char *name)
{
    char *text = pvPortMalloc(TEXT_SIZE);
    if (text) {
        memcpy(text, prefix, length(prefix));
        memcpy(text + length(prefix), name, length(name) + 1);
    }
    return text;
}

int main(void)
{
    char line[32];
    ssize_t count = read(0, line, sizeof line - 1);
    if (count < 1)
        return 1;
    line[count] = 0;
    for (char *end = line; *end; end++)
        if (*end == '\n')
            *end = 0;
    char *name = strdup(line);
    char *text = name ? greeting(name) : NULL;
    if (!text)
        return 2;
    write(1, text, length(text));
    greeted++;
    vPortFree(text);
    free(name);
    return greeted != 1;
}
