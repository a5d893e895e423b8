/* An inlined call of the host in a loop, which at last writes a byte that nothing has set. */
#include "host_call.h"

static __attribute__((noinline)) void fold(const char *text)
{
    for (int i = 0; i < 3; i++)
        host(3, text + i);
}

int main(void)
{
    char text[3];                               /* bug: the third byte stays as it was */
    text[0] = 'a';
    text[1] = 'b';
    fold(text);
    long end[2] = { 0x20026, 0 };
    return (int)host(0x20, end);
}
