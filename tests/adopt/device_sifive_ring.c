/* A program for SiFive's FE310, as QEMU's sifive_e is: it adds the numbers of each line, and what it says waits in a ring. It has the
   UART's address from memory. It ends in a loop, after a full stop, or after a mark that turns the UART off, too. */
#include <stdint.h>

static volatile uint32_t *const volatile uart = (volatile uint32_t *)0x10013000;

static struct {
    char bytes[8];
    unsigned first, count;
} ring;

static __attribute__((noinline)) void flush(void)
{
    volatile uint32_t *registers = uart;
    for (; ring.count > 0; ring.count--) {
        while (registers[0] >> 31)
            continue;
        registers[0] = (uint8_t)ring.bytes[ring.first];
        ring.first = (ring.first + 1) % sizeof ring.bytes;
    }
}

static void put(char byte)
{
    if (ring.count == sizeof ring.bytes)
        flush();
    ring.bytes[(ring.first + ring.count++) % sizeof ring.bytes] = byte;
}

static void put_number(unsigned value)
{
    if (value >= 10)
        put_number(value / 10);
    put((char)('0' + value % 10));
}

static __attribute__((noinline)) char get(void)
{
    volatile uint32_t *registers = uart;
    uint32_t data;
    while ((data = registers[1]) >> 31)
        continue;
    return (char)data;
}

static __attribute__((noinline)) void turn_on(void)
{
    uart[2] = 1;
    uart[3] = 1;
}

static __attribute__((noinline)) void turn_off(void)
{
    uart[2] = 0;
    uart[3] = 0;
}

int main(void)
{
    turn_on();
    unsigned sum = 0, value = 0;
    char byte;
    while ((byte = get()) != '.' && byte != '!') {
        if (byte >= '0' && byte <= '9') {
            value = 10 * value + (unsigned)(byte - '0');
            continue;
        }
        sum += value;
        value = 0;
        if (byte != '\n')
            continue;
        for (const char *text = "the sum is "; *text; text++)
            put(*text);
        put_number(sum);
        put('\n');
        sum = 0;
    }
    flush();
    if (byte == '!')
        turn_off();
    for (;;)
        continue;
}
