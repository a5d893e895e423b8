/* A program with variables of each kind, for tests/page/page_variables.py: built with and without optimisation, so that they are on the
   stack, in registers, in both by turns, and nowhere. */
#include <stdbool.h>
#include <stddef.h>
#include <stdint.h>

enum colour { RED, GREEN = 5, BLUE = -2 };
enum flags { READ = 1, WRITE = 2, RUN = 4 };

struct point { short x, y; };
typedef struct { int number; struct point at; const char *name; } named;
struct bits { unsigned low : 3; int middle : 7; unsigned : 5; bool flag : 1; enum colour colour : 8; uint64_t wide : 40; };
union either { int32_t number; float real; uint8_t bytes[4]; };
struct list { struct list *next; int value; uint8_t data[6]; char text[8]; };

typedef int (*operation)(int, int);
typedef volatile unsigned counter;

int total = 7;
static const char *const names[] = { "harbour", "mill", "a name of more than twenty-four letters" };
static struct list last = { NULL, 3, { 1, 0, 2, 0, 0, 9 }, "last" };
static counter calls;
volatile int sink;

static inline __attribute__((always_inline)) int square(int of)
{
    int result = of * of;
    sink += result;
    return result;
}

__attribute__((noinline)) static int add(int one, int other)
{
    static int added;
    added += one;
    return one + other + added;
}

__attribute__((noinline)) static int subtract(int one, int other)
{
    return one - other;
}

__attribute__((noinline)) static int apply(operation does, int one, int other)
{
    int result = does(one, other);
    sink = result;
    return result + square(one);
}

__attribute__((noinline)) static long long wide(long long a, unsigned long long b, double real)
{
    long long sum = a + (long long)b;
    double twice = real * 2;
    sink = (int)sum;
    return sum + (long long)twice;
}

__attribute__((noinline)) static int walk(const struct list *from, named *into)
{
    int sum = 0;
    for (const struct list *it = from; it; it = it->next) {
        int value = it->value;
        into->number += value;
        sum += value;
        if (sum > 4) {
            int sum = value * 2;
            into->at.x = (short)sum;
            sink = sum;
        }
    }
    return sum;
}

__attribute__((noinline)) static unsigned depth(unsigned left, const char *told)
{
    unsigned here = left * 3;
    calls++;
    if (left)
        here += depth(left - 1, told + 1);
    return here;
}

__attribute__((noinline)) static int kinds(int given)
{
    signed char minus = -3;
    unsigned char letter = 'x', zero = 0, high = 0xe9;
    char quote = '\'', line = '\n';
    bool yes = given > 0, no = false;
    short low = (short)(-30000 + given);
    uint16_t half = 0xfffe;
    int64_t far = -5000000000LL - given;
    uint64_t farther = 0xfedcba9876543210u;
    float real = 3.14f * (float)given;
    double more = -1e-3 * given;
    enum colour colour = given > 1 ? BLUE : GREEN;
    enum flags flags = READ | RUN, none = 0;
    struct bits bits = { 5, -9, true, GREEN, 0x123456789a };
    struct bits more_bits[2] = { { 1, 2, false, RED, 3 }, { 6, -5, true, BLUE, 0xfedcba9876 } };
    union either either = { .real = 1.5f };
    int numbers[30], table[2][3] = { { 1, 2, 3 }, { 4, 5, given } };
    named pair[2] = { { 1, { 2, 3 }, names[0] }, { 4, { 5, 6 }, names[2] } };
    char text[12] = "mill\tpond";
    uint8_t raw[5] = { 0, 1, 0xff, 0, 4 };
    const char *const *all = names;
    operation does = given > 0 ? add : subtract;
    void *nothing = NULL, *where = &numbers[1];
    int (*row)[3] = &table[1];
    int unset;
    for (int i = 0; i < 30; i++)
        numbers[i] = i * given;
    sink = minus + letter + zero + high + quote + line + yes + no + low + half + (int)far + (int)farther + (int)real + (int)more
        + (int)colour + (int)flags + (int)none + bits.middle + more_bits[1].low + either.number + numbers[3] + table[1][2]
        + pair[1].number + text[0] + raw[2] + all[1][0] + does(given, 2) + (nothing != NULL) + *(int *)where + (*row)[1];
    if (given > 100)
        unset = 4;
    return sink + (given > 100 ? unset : 0);
}

int main(void)
{
    struct list second = { &last, 2, { 7, 8 }, "second" }, first = { &second, 1, { 0 }, { 'f', 'u', 'l', 'l', 'e', 's', 't', '!' } };
    named found = { 0, { 0, 0 }, "found" };
    int sum = kinds(2);
    sum += apply(add, sum, 3);
    sum += apply(subtract, total, 1);
    sum += (int)wide(-6000000000LL, 0x8000000000000001u, 2.25);
    sum += walk(&first, &found);
    sum += (int)depth(3, names[1]);
    for (unsigned i = 0; i < 3; i++) {
        struct point here = { (short)i, (short)(i + 1) };
        sum += here.y + found.at.x;
        sink = sum;
    }
    return sum & 1;
}
