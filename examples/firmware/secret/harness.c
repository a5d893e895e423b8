/* Reads a secret of 16 bytes and 16 other bytes, and gives both to the function under test. With -DDECIDES the status depends on the
   result, which is read from memory again, where it can be revealed; otherwise the result only stays there. */
#include <unistd.h>

unsigned target(const unsigned char *secret, const unsigned char *other);

static unsigned char secret[16], other[16];
volatile unsigned result;

int main(void)
{
    if (read(0, secret, sizeof secret) != sizeof secret || read(0, other, sizeof other) != sizeof other)
        return 2;
    result = target(secret, other);
#ifdef DECIDES
    return result ? 0 : 1;
#else
    return 0;
#endif
}
