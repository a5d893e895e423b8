/* A program for QEMU's virt: it polls the UART, a 16550, sets its rate first, and ends by the test device. Of one register the
   code doesn't have the address. */
#include <stdint.h>

#define UART ((volatile uint8_t *)0x10000000)
#define TEST ((volatile uint32_t *)0x100000)

static volatile uint8_t *volatile sender = UART;

static void put(char byte)
{
    while (!(UART[5] & 0x20))
        continue;
    *sender = (uint8_t)byte;
}

static void say(const char *text)
{
    while (*text)
        put(*text++);
}

static int get(void)
{
    for (int tries = 0; tries < 100000; tries++)
        if (UART[5] & 1)
            return UART[0];
    return -1;
}

int main(void)
{
    char line[8];
    unsigned used = 0;
    UART[3] = 0x80;
    UART[0] = 'x';                              /* half of the divisor, which isn't sent */
    UART[1] = 0;
    UART[3] = 3;
    say("ready\n");
    for (int byte; used < sizeof line - 1 && (byte = get()) >= 0 && byte != '\n';)
        line[used++] = (char)byte;
    line[used] = 0;
    say("got ");
    say(line);
    say("\n");
    *TEST = used == 5 ? 0x5555 : 0x3333 | used << 16;
    for (;;)
        continue;
}
