"""What test-search searches in: programs in C, and command lines that are rejected."""
from replaycheck.guest.rv32 import branch, of_immediate

# A program by itself: `call` is a call of the environment, and `read_all` reads the input. Each one below has a `main`, by whose value it
# exits.
START = """static long call(long number, long a, long b, long c)
{
    register long a0 __asm__("a0") = a, a1 __asm__("a1") = b, a2 __asm__("a2") = c, a7 __asm__("a7") = number;
    __asm__ volatile("ecall" : "+r"(a0) : "r"(a1), "r"(a2), "r"(a7) : "memory");
    return a0;
}
static unsigned char given[8192];
static int read_all(void)
{
    int count = 0, more;
    while ((more = call(63, 0, (long)given + count, sizeof given - count)) > 0)
        count += more;
    return count;
}
static int main(void);
void _start(void) { call(93, main(), 0, 0); }
"""
# A packet: a word, a length, a sum, and records, one kind of which reads where nothing is.
PACKET = START + """
static unsigned at16(int at) { return given[at] << 8 | given[at + 1]; }
static int main(void)
{
    int at, count = read_all();
    unsigned sum = 0;
    if (count < 8 || (given[0] | given[1] << 8 | given[2] << 16 | (unsigned)given[3] << 24) != 0x7a3c91e5 || at16(4) != count - 8)
        return 2;
    for (at = 8; at < count; at++)
        sum += given[at];
    if ((sum & 0xffff) != at16(6))
        return 3;
    for (at = 8; at + 4 <= count;) {
        unsigned kind = at16(at), size = at16(at + 2);
        at += 4;
        if (size > count - at)
            return 4;
        if (kind == 0x41b7 && size >= 2)
            return *(volatile int *)(0x1000 + given[at]);
        at += size;
    }
    return 0;
}
"""
# The same front, and two records that depend on each other: the second one knows a secret, and counts only after the first one.
SECRET = START + """
static unsigned at16(int at) { return given[at] << 8 | given[at + 1]; }
static unsigned at32(int at) { return given[at] | given[at + 1] << 8 | given[at + 2] << 16 | (unsigned)given[at + 3] << 24; }
static int main(void)
{
    int at, has_name = 0, count = read_all();
    unsigned sum = 0;
    if (count < 8 || at32(0) != 0x6b21f09d || at16(4) != count - 8)
        return 2;
    for (at = 8; at < count; at++)
        sum += given[at];
    if ((sum & 0xffff) != at16(6))
        return 3;
    for (at = 8; at + 4 <= count;) {
        unsigned kind = at16(at), size = at16(at + 2);
        at += 4;
        if (size > count - at)
            return 4;
        if (kind == 0x3e95)
            has_name = 1;
        else if (kind == 0x5c02 && size >= 4 && has_name && at32(at) == 0xd15ea5e7)
            return *(volatile int *)16;
        at += size;
    }
    return 0;
}
"""
# A request that writes registers from 100 on. Its number of registers is compared with the greatest one, with its number of bytes and
# with the end of the registers. The first input that gets past the first two has the greatest number, which is too great for the third.
REGISTERS = START + """
static int at16(int at) { return given[at] << 8 | given[at + 1]; }
static int main(void)
{
    if (read_all() < 8 || given[0] != 23)
        return 1;
    int number = at16(1), bytes = given[3], first = at16(4) - 100;
    if (number < 1 || number > 121 || bytes != number * 2)
        return 2;
    if (first + number > 10)
        return 3;
    return first < 0 ? *(volatile int *)16 : 0;
}
"""
# Five words, each of which is looked at after the one before it. The third one alone leads to nothing new, nor does the fourth.
WORDS = START + """
static const unsigned short words[] = { 0x4be1, 0x90d3, 0x17c6, 0xe25a, 0x6d84 };
static int main(void)
{
    read_all();
    for (int at = 0; at < 5; at++)
        if ((given[2 * at] | given[2 * at + 1] << 8) != words[at])
            return 1;
    return *(volatile int *)16;
}
"""
# Which word is looked at depends on a value that no branch depends on.
VALUE = START + """
static int at16(int at) { return given[at] << 8 | given[at + 1]; }
static int main(void)
{
    read_all();
    int is_other = at16(0) == 0x41b7;
    if (at16(8 + 64 * is_other) != 0x5c02)
        return 1;
    return *(volatile int *)((long)given & (is_other - 1)) & 0;
}
"""
# A sum that is compared in a function: its value is in a register. The records are those of the packet.
SUM = PACKET.replace("static int main(void)\n", """static __attribute__((noipa)) int has_sum(int count)
{
    unsigned sum = 0;
    for (int at = 8; at < count; at++)
        sum += given[at];
    return (sum & 0xffff) == at16(6);
}
static int main(void)
""").replace("""    for (at = 8; at < count; at++)
        sum += given[at];
    if ((sum & 0xffff) != at16(6))
""", """    if (!has_sum(count))
""")
# A length that has to be great enough.
LENGTH = START + """
static int main(void)
{
    int count = read_all(), length = given[4] << 8 | given[5];
    if (count < 8 || given[0] != 0x3d || length != count - 8)
        return 2;
    return length < 20 ? 3 : *(volatile int *)16;
}
"""
# A number with a sign that no compare asks for: one below zero.
SIGN = START + """
static __attribute__((noipa)) int is_low(int number) { return number < 0x412345; }
static int main(void)
{
    read_all();
    int number = (given[0] | given[1] << 8 | given[2] << 16) - 1;
    return is_low(number) ? *(volatile int *)((long)given & ~(number >> 31)) & 0 : 1;
}
"""
# Bytes that no compare depends on.
IDLE = START + """
static int main(void)
{
    if (read_all() < 8 || given[7] != 0x3c)
        return 1;
    int all = given[0] & given[1] & given[2] & given[3] & given[4] & given[5] & given[6];
    return *(volatile int *)((long)given & (all - 255) >> 8) & 0;
}
"""
# A word that is looked up in a table, where only the last of 100 counts.
TABLE = START + """
static int main(void)
{
    int found = 0, word = (read_all(), given[0] | given[1] << 8);
    for (int at = 0; at < 100; at++)
        if (word == (0x2c15 + at * 0x1d3 ^ at << 9 & 0xfe00))
            found = at;
    return found == 99 ? *(volatile int *)16 : word == 0x7a31;
}
"""
STATUS = START + "static int main(void) { return read_all() ? given[0] : 256; }\n"
# Two searches: the first can find one word, and not the eight bytes that lead to this sum.
TWO = START + """
static int main(void)
{
    int count = read_all();
    unsigned sum = 0x811c9dc5;
    if (given[0] == 'A' && given[1] == 'B')
        return 2;
    for (int at = 0; at < count; at++)
        sum = (sum ^ given[at]) * 0x01000193;
    return sum == 0xa2825d2f ? 3 : 1;
}
"""
HANGS = START + "static int main(void) { read_all(); for (;;) given[0]++; }\n"
NEVER_READS = START + "static int main(void) { return 3; }\n"
# Inputs for which a line has no room.
FAR = START + """
static int main(void)
{
    if (read_all() != 5000)
        return 1;
    return given[700] == 0x5a && given[701] == 0xa5 ? *(volatile int *)16 : 0;
}
"""
PROGRAMS = {"packet": PACKET, "secret": SECRET, "registers": REGISTERS, "hangs": HANGS, "never": NEVER_READS, "far": FAR, "words": WORDS,
            "value": VALUE, "sum": SUM, "length": LENGTH, "sign": SIGN, "idle": IDLE, "table": TABLE, "status": STATUS, "two": TWO}
# Searches that find a read where nothing is: a label, the program, the seed, the tries, and the seeds of the generator.
FOUND = (
    ("two records", "secret", bytes(8), 6000, (0, 1)),
    ("a number in three compares", "registers", b"", 1000, (0,)),
    ("words of which each leads to nothing new", "words", bytes(8), 5000, (0,)),
    ("a value that no branch depends on", "value", bytes(8), 1500, (0,)),
    ("a sum whose compare is a value", "sum", bytes(8), 5000, (0, 1)),
    ("a length, and bytes after it", "length", b"\x3d" + bytes(7), 80, (0,)),
    ("a number below zero", "sign", b"\x7f" * 8, 100, (0,)),
    ("bytes that no compare depends on", "idle", bytes(8), 300, (0,)),
    ("the last of many compares", "table", bytes(8), 1500, (0,)),
)

# What a search of the station finds from eight zero bytes: how each text begins, and a function of its trace.
STATION = (("Invalid write of size 1", "set_name"), ("Invalid read of size 1", "show"), ("Conditional jump", "show"),
           ("Invalid read of size 2", "add_level"), ("Invalid read of size 2", "show"), ("definitely lost", "add_limits"))

# Signals at places where Python drops what they raise, or where nothing takes that: a label, the words for signalled.py, the arguments
# after the file, the status (-2 by SIGINT), and the greatest number of tries: fewer than a worker's share of --runs.
PLACES = (
    ("a worker drops it", ["dropped", "SIGTERM", "replaycheck.searching.worker", "Worker.turn"], ["--jobs=2", "--runs=20000"], 0, 9999),
    ("before a worker has begun", ["in-child", "SIGTERM", "os", "fork"], ["--jobs=8", "--runs=20000"], 0, 2499),
    ("before a worker's work", ["before", "SIGTERM", "replaycheck.searching.processes", "obey"], ["--jobs=2", "--runs=20000"], 0, 0),
    ("once a worker's work is done", ["before", "SIGTERM", "replaycheck.searching.processes", "end_children"],
     ["--jobs=1", "--runs=300"], 1, 300),
    ("as a worker is left out", ["after", "SIGINT", "selectors", "EpollSelector.unregister"], ["--jobs=2", "--runs=100"], -2, 100),
    ("the first process drops it", ["dropped", "SIGINT", "replaycheck.searching.state", "State.show"], ["--jobs=2", "--runs=20000"],
     -2, 9999),
)

# A label, the arguments after the file, and what standard error says.
REJECTED = (
    ("no number of runs", ["--runs=0"], "--runs: '0' is not a number from 1 to"),
    ("no time", ["--time=x"], "--time: 'x' is not a number from 1 to"),
    ("too long inputs", ["--max-len=65537"], "--max-len: '65537' is not a number from 1 to 65536"),
    ("no length", ["--max-len=0"], "--max-len: '0' is not a number from 1 to 65536"),
    ("a step too late", ["--step=4194305"], "--step: '4194305' is not a number from 0 to 4194304"),
    ("a step above the limit", ["--step=4194307", "--limit=4194306"], "--step: '4194307' is not a number from 0 to 4194306"),
    ("no limit", ["--limit=0"], "--limit: '0' is not a number from 1 to 2147483647"),
    ("a limit too great", ["--limit=2147483648"], "--limit: '2147483648' is not a number from 1 to 2147483647"),
    ("a limit before the end", ["--limit=20"], "doesn't end by step 20: --step N says how far each run goes"),
    ("a seed that isn't there", ["--input=missing"], "missing: No such file or directory"),
    ("a folder without a file", ["--input=empty-folder"], "--input: no file in empty-folder"),
    ("tokens that aren't there", ["--tokens=missing"], "missing: No such file or directory"),
    ("no token", ["--tokens=no-token"], 'line 2: no token as name="text" of 1 to 64 bytes: name=text'),
    ("another escape", ["--tokens=other-escape"], r'line 1: no token as name="text" of 1 to 64 bytes: "\q"'),
    ("an output over the program", ["--lcov=station.elf"], "--lcov station.elf: it would overwrite the program"),
    ("a folder that is a file", ["--out=zeros"], "zeros: "),
    ("an empty goal", ["--goal="], "an option without a value"),
    ("an unknown option", ["--jbos=2"], "unrecognized arguments: --jbos=2"),
    ("suppressions that aren't any", ["--supp=no-token"], "suppressions refused 13"),
)

# The instruction at each address below: two branches on whether numbers are the same, one on which of them is less, with a sign, and one
# that has 1 in a register where a number is 0.
COMPARE_AT = {1: branch(0, 10, 11, 8), 2: branch(0, 10, 11, 8), 3: branch(4, 10, 11, 8), 4: of_immediate(3, 10, 10, 1)}
# What compares say and what follows: a label, an input, what a change of the byte at an offset does to a compare (step, address, the two
# operands, and the operands of the other run; the offset None is a byte more at the end), and some inputs that are solved for.
SOLVED = (
    ("a word, the lowest byte first", "0000", {0: "7 1 0 1234 1 1234", 1: "7 1 0 1234 100 1234"}, ["3412", "3512", "3312"]),
    ("a word, the highest byte first", "0000", {0: "7 1 0 1234 100 1234", 1: "7 1 0 1234 1 1234"}, ["1234", "1235", "1233"]),
    ("the other operand", "0000", {1: "7 1 41 0 41 1"}, ["0041", "0042", "0040"]),
    ("a byte that gets smaller", "0100", {0: "7 1 1 20 0 20"}, ["2000"]),
    ("something is added to it", "0500", {0: "7 1 35 41 34 41"}, ["1100"]),
    ("a carry", "ff00", {0: "7 1 1ff 200 1fe 200", 1: "7 1 1ff 200 2ff 200"}, ["0001", "0101"]),
    ("it is taken away", "05", {0: "7 1 3b 30 3c 30"}, ["10", "0f", "11"]),
    ("one byte is added, and another one is taken away", "0502", {0: "7 1 3 30 2 30", 1: "7 1 3 30 2 30"}, ["3202", "3302", "3102"]),
    ("a number below zero", "0102", {0: "7 3 ffffffff 8 fffffffe 8", 1: "7 3 ffffffff 8 fffffffe 8"}, ["0a02", "0b02", "0902"]),
    ("whether a number is zero", "0000", {0: "7 4 ffffffbf 1 ffffffc0 1"}, ["4100", "4200", "4000"]),
    ("a byte that has no room", "0000", {0: "7 1 0 200 1 200"}, []),
    ("a length", "0000", {None: "7 1 2 5 3 5"}, ["0000000000", "000000000000", "00000000"]),
    ("a length in other units", "0000", {None: "7 1 8 10 c 10"}, ["00000000"]),
    ("the last compare first", "0000", {0: "7 1 0 41 1 41", 1: "9 2 0 42 1 42"}, ["0042", "0043", "0041", "4100"]))
# Tokens: the text of a line, and its bytes, or None if it is rejected.
TOKENS = ((b'"a"', b"a"), (b'name="a b"', b"a b"), (b'n@3="\\x00\\xff"', b"\0\xff"), (b'"\\\\\\""', b'\\"'), (b'"a" # no', None),
          (b'""', None), (b'"\\x0"', None), (b'"a', None), (b'a', None), (b'"' + b"a" * 65 + b'"', None))
