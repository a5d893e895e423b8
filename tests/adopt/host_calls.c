/* Each operation of semihosting, called without a library. Prints what each returns: `test-adopt` compares it with what
   qemu-system-riscv32 printed. */
#include "host_call.h"

#define CALL(operation, ...) host(operation, (long[]){ __VA_ARGS__ })
#define TEXT(text) (long)(text), sizeof(text) - 1

enum { OPEN = 1, CLOSE, WRITEC, WRITE0, WRITE, READ, READC, ISERROR, ISTTY, SEEK, FLEN = 12, TMPNAM, REMOVE, RENAME, CLOCK, TIME,
       ERRNO = 0x13, GET_CMDLINE = 0x15, HEAPINFO, EXIT = 0x18, EXIT_EXTENDED = 0x20, ELAPSED = 0x30, TICKFREQ };

static __attribute__((noinline)) void say(const char *text)
{
    host(WRITE0, text);
}

static void number(long value)
{
    char text[14], *at = text + 13;
    unsigned long left = value < 0 ? -(unsigned long)value : (unsigned long)value;
    *at = 0;
    do
        *--at = (char)('0' + left % 10);
    while (left /= 10);
    if (value < 0)
        *--at = '-';
    *--at = ' ';
    say(at);
}

static long open_file(const char *name, long length, long mode)
{
    return CALL(OPEN, (long)name, mode, length);
}

static void streams(void)
{
    char bytes[8];
    long in = open_file(":tt", 3, 0), out = open_file(":tt", 3, 4), err = open_file(":tt", 3, 8);
    say("opened"), number(in > 0), number(out > 0), number(err > 0), number(in != out && out != err && err != in);
    say("\nothers"), number(open_file("/nowhere/x", 10, 0)), number(host(ERRNO, 0)), number(open_file(":tx", 3, 0));
    number(open_file(":tt", 3, 12)), number(host(ERRNO, 0));
    say("\nwrite "), number(CALL(WRITE, out, TEXT("out"))), number(CALL(WRITE, err, TEXT(""))), number(CALL(WRITE, 77, TEXT("abc")));
    say("\nread"), number(CALL(READ, in, (long)bytes, 4)), host(WRITEC, bytes), host(WRITEC, bytes + 3);
    number(CALL(READ, in, (long)bytes, 8)), host(WRITEC, bytes), number(CALL(READ, in, (long)bytes, 8));
    number(CALL(READ, in, (long)bytes, 0)), number(CALL(READ, 77, (long)bytes, 4));
    say("\nterminal"), number(CALL(ISTTY, out)), number(CALL(ISTTY, 77)), number(host(ERRNO, 0));
    say("\nseek"), number(CALL(SEEK, out, 0)), number(host(ERRNO, 0)), number(CALL(SEEK, 77, 0)), number(host(ERRNO, 0));
    say("\nlength"), number(CALL(FLEN, out)), number(CALL(FLEN, 77)), number(host(ERRNO, 0));
    say("\nclose"), number(CALL(CLOSE, in)), number(CALL(CLOSE, 77)), number(host(ERRNO, 0));
}

static void features(void)
{
    char bytes[16] = "";
    long file = open_file(":semihosting-features", 21, 0);
    say("\nfeatures"), number(file > 0), number(CALL(FLEN, file)), number(CALL(ISTTY, file)), number(CALL(READ, file, (long)bytes, 3));
    say(" "), say(bytes), number(CALL(READ, file, (long)bytes, 10)), number(bytes[0]), number(bytes[1]);
    number(CALL(READ, file, (long)bytes, 10)), number(CALL(SEEK, file, 4)), number(CALL(READ, file, (long)bytes, 1)), number(bytes[0]);
    number(CALL(SEEK, file, 5)), number(CALL(SEEK, file, 6)), number(host(ERRNO, 0)), number(CALL(WRITE, file, TEXT("ab")));
    number(open_file(":semihosting-features", 21, 4)), number(host(ERRNO, 0)), number(open_file(":semihosting-featurez", 21, 0));
    number(CALL(CLOSE, file));
}

static void numbers(void)
{
    char text[64];
    long line[2] = { (long)text, 64 }, block[4] = { 9, 9, 9, 9 }, to = (long)block, ticks[2] = { -1, -1 }, before = host(CLOCK, 0);
    say("\nerrors"), number(CALL(ISERROR, -1)), number(CALL(ISERROR, 0)), number(CALL(ISERROR, 5));
    say("\nclock"), number(before >= 0), number(host(CLOCK, 0) >= before), number(host(TICKFREQ, 0) > 0);
    say("\nelapsed"), number(host(ELAPSED, ticks)), number(ticks[1]);
    say("\nline"), number(host(GET_CMDLINE, line)), number(line[1]), say(" "), say(text);
    line[1] = 3, number(host(GET_CMDLINE, line)), number(host(ERRNO, 0));
    line[1] = 12, number(host(GET_CMDLINE, line)), line[1] = 13, number(host(GET_CMDLINE, line)), number(line[1]);
    say("\nheap"), number(host(HEAPINFO, &to)), number(block[0] != 9 && block[3] != 9);
    say("\nfiles"), number(CALL(REMOVE, TEXT("/nowhere/x"))), number(CALL(RENAME, TEXT("/nowhere/x"), TEXT("/nowhere/y")));
    say("\n");
}

int main(void)
{
    streams();
    features();
    numbers();
#ifdef PLAIN_EXIT
    host(EXIT, (void *)PLAIN_EXIT);
#endif
    CALL(EXIT_EXTENDED, 0x20026, 42);
    for (;;)
        ;
}
