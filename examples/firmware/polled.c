/* Sends three bytes by a serial line that replaycheck knows nothing of: a register is read again and again until it says ready. */
#include <stdint.h>

struct serial_line {
    volatile uint32_t status;
    volatile uint32_t data;
};

#define LINE ((struct serial_line *)0x10013000)
#define READY 1

int main(void)
{
    for (const char *next = "ok\n"; *next; next++) {
        while (!(LINE->status & READY))
            continue;
        LINE->data = *next;
    }
    return 0;
}
