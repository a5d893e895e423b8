/* A program for SiFive's FE310, as QEMU's sifive_e is: it polls the UART, and ends in a loop. */
#include <stdint.h>

#define UART ((volatile uint32_t *)0x10013000)

static void say(const char *text)
{
    for (; *text; text++) {
        while (UART[0] >> 31)
            continue;
        UART[0] = (uint8_t)*text;
    }
}

int main(void)
{
    unsigned sum = 0;
    uint32_t data;
    UART[2] = 1;
    UART[3] = 1;
    say("ready\n");
    while ((data = UART[1]) != '\n')
        sum += data >> 31 ? 0 : data;
    say(sum == 532 ? "right\n" : "wrong\n");
    for (;;)
        continue;
}
