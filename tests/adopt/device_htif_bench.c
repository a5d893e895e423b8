/* A program for Spike, in the form of riscv-tests' benchmarks: letters wait in a buffer for a call by tohost, and the status is an odd
   number there. With -DCONSOLE each is read and written by the console, device 1, as qemu-system-riscv32 7.2 does no calls. It sorts
   as many numbers as the input says. */
#include <stdint.h>

volatile uint64_t tohost __attribute__((section(".tohost"), aligned(64)));
volatile uint64_t fromhost __attribute__((section(".tohost"), aligned(64)));
static char buffer[64] __attribute__((aligned(64)));
static unsigned used;

static uint64_t ask(uint64_t word)
{
    __sync_synchronize();
    tohost = word;
    while (fromhost == 0)
        continue;
    uint64_t answer = fromhost;
    fromhost = 0;
    __sync_synchronize();
    return answer;
}

static char get(void)
{
#ifdef CONSOLE
    return (char)ask(0x0100ull << 48);
#else
    volatile uint64_t call[8] __attribute__((aligned(64))) = { 63, 0, (uintptr_t)buffer, 1 };
    ask((uintptr_t)call);
    return buffer[0];
#endif
}

static void flush(void)
{
#ifdef CONSOLE
    for (unsigned i = 0; i < used; i++)
        ask(0x0101ull << 48 | (uint8_t)buffer[i]);
#else
    volatile uint64_t call[8] __attribute__((aligned(64))) = { 64, 1, (uintptr_t)buffer, used };
    ask((uintptr_t)call);
#endif
    used = 0;
}

static void put(char byte)
{
    buffer[used++] = byte;
    if (byte == '\n' || used == sizeof buffer)
        flush();
}

static void put_number(unsigned value)
{
    if (value >= 10)
        put_number(value / 10);
    put((char)('0' + value % 10));
}

static __attribute__((noreturn)) void leave(unsigned code)
{
    tohost = (uint64_t)code << 1 | 1;
    for (;;)
        continue;
}

/* Sorts numbers, and returns how many it has moved. */
static unsigned sorted(unsigned *numbers, unsigned count)
{
    unsigned moves = 0;
    for (unsigned i = 1; i < count; i++)
        for (unsigned j = i; j > 0 && numbers[j - 1] > numbers[j]; j--, moves++) {
            unsigned other = numbers[j];
            numbers[j] = numbers[j - 1];
            numbers[j - 1] = other;
        }
    return moves;
}

int main(void)
{
    unsigned numbers[9], value = 1, count = (unsigned)(get() - '0') % 10;
    for (unsigned i = 0; i < count; i++)
        numbers[i] = (value = value * 1103515245 + 12345) >> 20;
    unsigned moves = sorted(numbers, count);
    for (unsigned i = 0; i < count; i++) {
        put_number(numbers[i]);
        put(i < count - 1 ? ' ' : '\n');
    }
    put_number(moves);
    for (const char *text = " moves\n"; *text; text++)
        put(*text);
    leave(moves);
}
