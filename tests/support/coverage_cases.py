"""What test-coverage compares: programs in C, what other programs say of an example's run, and the forms of the outputs."""
import bisect
import functools
import os
import re
import subprocess

BINUTILS = "riscv64-unknown-elf-"
GCC = f"{BINUTILS}gcc"
LAST = 2000  # more steps than any of the examples needs
HEAP = ("malloc", "calloc", "realloc", "free")
DISASSEMBLED = re.compile(r" *([0-9a-f]+):\t([0-9a-f]{4}|[0-9a-f]{8}) *\t([a-z][\w.]*)\b")
BRANCHES = {"beq", "bne", "blt", "bge", "bltu", "bgeu", "beqz", "bnez", "bltz", "bgez", "blez", "bgtz", "bgt", "ble", "bgtu", "bleu"}
DECODED = re.compile(r"(\S.*?) +(\d+|-) +0x([0-9a-f]+)(?:\[\d+\])?(?: +\d+)?(?: +x)?(?: +END)?\s*")
# What a line of an info file is.
INFO = re.compile(r"TN:|SF:[^\x00-\x1f\x7f]+|FN:\d+,[^\x00-\x1f\x7f,]+|FNDA:[01],[^\x00-\x1f\x7f,]+|(?:FNF|FNH|BRF|BRH|LF|LH):\d+|"
                  r"BRDA:\d+,\d+,[01],[-01]|DA:\d+,[01]|end_of_record")

# A program by itself, which reads up to four bytes: `START` begins it, exits with what `main` returns, and reads.
START = """#line 1 "start.c"
static long call(long number, long a, long b, long c)
{
    register long a0 __asm__("a0") = a, a1 __asm__("a1") = b, a2 __asm__("a2") = c, a7 __asm__("a7") = number;
    __asm__ volatile("ecall" : "+r"(a0) : "r"(a1), "r"(a2), "r"(a7) : "memory");
    return a0;
}
int main(const unsigned char *, int);
void _start(void)
{
    unsigned char given[4] = {0};
    int count = call(63, 0, (long)given, 4);
    call(93, main(given, count), 0, 0);
}
"""
CHOOSES = START + """
#line 1 "chooses.c"
static inline __attribute__((always_inline)) int twice(int a)
{
    return 2 * a;
}
__attribute__((noinline)) int never(int a)
{
    return a + 1;
}
int main(const unsigned char *given, int count)
{
    int sum = 0;
    for (int at = 0; at < count; at++)
        sum += given[at];
    if (sum == 3)
        return twice(sum);
    if (sum == 5)
        return never(sum);
    return sum;
}
"""


def words_of(isa, name, *more):
    """The command line of gcc for a program of one file, or of more."""
    return [GCC, f"-march={isa}", "-mabi=ilp32", "-nostdlib", "-ffreestanding", "-w", "-g", *more, "-o", name]


def instructions(file):
    """The address and the length of each instruction, and whether it is a conditional branch, by objdump."""
    told = subprocess.run([f"{BINUTILS}objdump", "-d", file], stdout=subprocess.PIPE, check=True, text=True).stdout
    rows = filter(None, map(DISASSEMBLED.match, told.splitlines()))
    return [(int(it[1], 16), len(it[2]) // 2, it[3].removeprefix("c.") in BRANCHES) for it in rows]


def heap_of(file):
    """Where the functions of the heap are that the program takes over."""
    told = subprocess.run([f"{BINUTILS}nm", file], stdout=subprocess.PIPE, check=True, text=True).stdout
    return {int(line.split()[0], 16) for line in told.splitlines() if line.split()[-1] in HEAP and line.split()[1] in "Tt"}


def looked(program, words, lines):
    """The replies to lines of `replaycheck look`."""
    script = "".join(f"{it}\n" for it in lines)
    return subprocess.run([program, "look", *words], input=script, stdout=subprocess.PIPE, check=True, text=True).stdout.splitlines()


def symbols(file):
    """The names of code by address."""
    told = subprocess.run([f"{BINUTILS}nm", "-n", file], stdout=subprocess.PIPE, check=True, text=True).stdout
    return [(int(line.split()[0], 16), line.split()[2]) for line in told.splitlines() if line.split()[1] in "Tt"]


@functools.lru_cache(maxsize=None)
def traced(program, words):
    """The addresses that a run executes step after step, by a look at each step."""
    last = int(looked(program, words, [f"goto {LAST}", "look last run 0 0xffffffff 0"])[-1].split()[1])
    told = looked(program, words, [line for step in range(last + 1) for line in (f"goto {step}", "look registers")])
    return [int(line.split()[2], 16) for line in told if line.startswith("state ")]


def found_by_search(program, words, found):
    """Which instructions run, by a search of each."""
    told = looked(program, words, [f"look next run 0x{address:x} {length} {LAST}" for address, length, _ in found])
    return {address for (address, _, _), line in zip(found, told) if line.startswith("step ")}


def frames(file, addresses):
    """The functions, the files and the lines of addresses, from the innermost inlined call on, by addr2line."""
    command = [f"{BINUTILS}addr2line", "-a", "-f", "-i", "-e", file, *map(hex, addresses)]
    found, lines = {}, subprocess.run(command, stdout=subprocess.PIPE, check=True, text=True).stdout.splitlines()
    places = [at for at, line in enumerate(lines) if line.startswith("0x")]
    for at, end in zip(places, [*places[1:], len(lines)]):
        rows = zip(lines[at + 1:end:2], (line.partition(" (")[0].rpartition(":") for line in lines[at + 2:end:2]))
        found[int(lines[at], 16)] = [(function, os.path.relpath(path), int(line)) for function, (path, _, line) in rows
                                     if line.isdigit() and int(line)]
    return found


def rows_of_lines(file, addresses):
    """The base name of the file and the line of addresses, by the rows of the line table."""
    command = [f"{BINUTILS}readelf", "-W", "--debug-dump=decodedline", file]
    told = subprocess.run(command, stdout=subprocess.PIPE, check=True, text=True).stdout
    found = filter(None, map(DECODED.fullmatch, told.splitlines()))
    rows = sorted((int(it[3], 16), it[2] != "-", at, it[1], it[2]) for at, it in enumerate(found))
    starts = [it[0] for it in rows]
    found = ((it, rows[bisect.bisect_right(starts, it) - 1]) for it in addresses if it >= starts[0])
    return {address: (row[3], int(row[4])) for address, row in found if row[4] != "-"}


class Record:
    """What an info file says of a source file."""

    def __init__(self, name):
        self.name, self.functions, self.first, self.lines, self.branches, self.sums = name, {}, {}, {}, {}, {}


def records(text):
    """The records of an info file by name. Each line must have its form."""
    found, record = {}, None
    for line in text.removesuffix("\n").split("\n"):
        if not INFO.fullmatch(line):
            raise ValueError(f"a line of another form: {line!r}")
        word, _, rest = line.partition(":")
        if word == "SF":
            record = found[rest] = Record(rest)
        elif word == "FN":
            record.first[rest.split(",")[1]] = int(rest.split(",")[0])
        elif word == "FNDA":
            record.functions[rest.split(",")[1]] = rest[0] == "1"
        elif word == "DA":
            record.lines[int(rest.split(",")[0])] = rest[-1] == "1"
        elif word == "BRDA":
            number, block, way, taken = rest.split(",")
            record.branches[int(number), int(block), int(way)] = taken
        elif word in ("FNF", "FNH", "BRF", "BRH", "LF", "LH"):
            record.sums[word] = int(rest)
    return found


def sums_that_differ(record):
    """The sums of a record that aren't those of its lines."""
    taken = list(record.branches.values())
    want = {"FNF": len(record.functions), "FNH": sum(record.functions.values()), "BRF": len(taken), "BRH": taken.count("1"),
            "LF": len(record.lines), "LH": sum(record.lines.values())}
    return [f"{record.name}: {name} {record.sums.get(name)} for {count}" for name, count in want.items() if record.sums.get(name) != count]


def json_that_differs(found, whole):
    """What the JSON says otherwise than the info file."""
    if {it["file"] for it in whole["files"]} != set(found):
        yield f"files {[it['file'] for it in whole['files']]}"
        return
    for it in whole["files"]:
        record = found[it["file"]]
        lines = {line["line_number"]: bool(line["count"]) for line in it["lines"]}
        functions = {function["name"]: bool(function["execution_count"]) for function in it["functions"]}
        counts = [way["count"] for line in it["lines"] for way in line["branches"]]
        named = [function["start_line"] == record.first.get(function["name"]) for function in it["functions"]]
        if (lines, functions) != (record.lines, record.functions) or not all(named):
            yield f"{record.name}: other lines or functions"
        if counts != [int(taken == "1") for _, taken in sorted(record.branches.items())]:
            yield f"{record.name}: other branches"
        if any(not line["count"] and not line["unexecuted_block"] for line in it["lines"]):
            yield f"{record.name}: a line that wasn't executed has no block that wasn't"


def keys(value, at=""):
    """The names of all members, with where they are."""
    if isinstance(value, dict):
        return {f"{at}.{name}" for name in value}.union(*(keys(it, f"{at}.{name}") for name, it in value.items()))
    return set().union(*(keys(it, at + "[]") for it in value)) if isinstance(value, list) else set()
