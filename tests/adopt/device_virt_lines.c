/* A program for QEMU's virt that sends each line in capitals, and ends by the test device at `exit STATUS`. It has the addresses of its
   devices from a table, so that only runs show what reaches them. */
#include <stdint.h>
#include <stdlib.h>
#include <string.h>

enum { TEST, SERIAL };
static const volatile uintptr_t devices[] = { [TEST] = 0x100000, [SERIAL] = 0x10000000 };
static char *kept;

static __attribute__((noinline)) void await(uintptr_t base, uint8_t bit)
{
    while (!(((volatile uint8_t *)base)[5] & bit))
        continue;
}

static __attribute__((noinline)) void put(uintptr_t base, char byte)
{
    await(base, 0x20);
    *(volatile uint8_t *)base = (uint8_t)byte;
}

static __attribute__((noinline)) char get(uintptr_t base)
{
    await(base, 1);
    return (char)*(volatile uint8_t *)base;
}

static __attribute__((noinline)) void power_off(uintptr_t base, unsigned code)
{
    *(volatile uint32_t *)base = code ? 0x3333 | code << 16 : 0x5555;
    for (;;)
        continue;
}

static void say(const char *text)
{
    for (; *text; text++)
        put(devices[SERIAL], (char)(*text >= 'a' && *text <= 'z' ? *text - 'a' + 'A' : *text));
    put(devices[SERIAL], '\n');
}

static void keep(const char *text)
{
    size_t size = strlen(text) < 12 ? strlen(text) : 12;
    free(kept);
    kept = malloc(12);
    memcpy(kept, text, size);
    kept[size] = 0;                             /* bug: after twelve letters it is the byte after the block */
}

static int is_command(const char *line, const char *name)
{
    return strlen(line) >= 5 && memcmp(line, name, 5) == 0;
}

static unsigned number(const char *digits)
{
    unsigned value = 0;
    for (; *digits >= '0' && *digits <= '9'; digits++)
        value = 10 * value + (unsigned)(*digits - '0');
    return value;
}

int main(void)
{
    for (;;) {
        char line[24];
        unsigned used = 0;
        for (char byte; (byte = get(devices[SERIAL])) != '\n';) {
            if (used < sizeof line - 1)
                line[used++] = byte;
        }
        line[used] = 0;
        if (is_command(line, "exit "))
            power_off(devices[TEST], number(line + 5));
        else if (is_command(line, "keep "))
            keep(line + 5);
        else
            say(strlen(line) == 0 && kept ? kept : line);
    }
}
