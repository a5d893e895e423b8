/* A program for Spike, in the form of riscv-tests' benchmarks: it writes and ends by tohost and fromhost. */
#include <stdint.h>

volatile uint64_t tohost __attribute__((aligned(64))), fromhost __attribute__((aligned(64)));

static uint32_t ask(uint32_t number, uint32_t first, uint32_t second, uint32_t third)
{
    volatile uint64_t call[8] __attribute__((aligned(64)));
    call[0] = number;
    call[1] = first;
    call[2] = second;
    call[3] = third;
    tohost = (uintptr_t)call;
    while (fromhost == 0)
        continue;
    fromhost = 0;
    return (uint32_t)call[0];
}

int main(void)
{
    static const char text[] = "by tohost\n";
    uint32_t sent = ask(64, 1, (uintptr_t)text, sizeof text - 1);
    tohost = sent << 1 | 1;
    for (;;)
        continue;
}
