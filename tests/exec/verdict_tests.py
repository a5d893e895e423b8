"""The small tests of `test-verdicts`: how each ends under `replaycheck exec`, and its text in C."""
import dataclasses
from typing import NamedTuple


class Why(NamedTuple):
    """Why a wrong test passes: the first cell of a row of docs/manual/tests.md, or words on the language. And whether it fails under
    qemu-riscv32."""

    words: str
    is_row: bool = True
    fails_elsewhere: bool = False


RIGHTS = Why("writes to a constant or to code", fails_elsewhere=True)
UNKNOWN = Why("makes a call that isn't known, and ignores its result", fails_elsewhere=True)
BESIDE = Why("one of the four, and other functions with `alloc` in their names")
UNNAMED = Why("no function like that")
STATUS = Why("a status has eight bits, and the others are dropped", is_row=False)
LEFT_OUT = Why("the compiler may leave out what nothing uses", is_row=False)


@dataclasses.dataclass
class Test:
    """A test: its text, its input, the status with which it ends under `exec`, and if that is 9 what the log has. A wrong test that
    `passes` does so for a reason, in some builds or in all. `heap`: whether the kit's heap is linked. `only`: the builds that there are."""

    label: str
    text: str
    is_right: bool
    status: int = 0
    said: str = ""
    given: bytes = b""
    passes: Why | None = None
    passes_in: tuple[str, ...] = ()
    options: tuple[str, ...] = ()
    heap: bool = True
    only: tuple[str, ...] = ()
    is_full: bool = False
    is_plus: bool = False


def right(label: str, text: str, status: int = 0, **more) -> Test:
    """A test that ends as under an emulator, with the same output."""
    return Test(label, text, True, status, **more)


def wrong(label: str, end: int | str, text: str, **more) -> Test:
    """A test that fails with a status, or with 9 and a line of the log."""
    return Test(label, text, False, *((end,) if isinstance(end, int) else (9, end)), **more)


# What comes before each text. The compiler knows of a function that is APART as much as of one in another file.
HEAD = r"""
#include <alloca.h>
#include <assert.h>
#include <setjmp.h>
#include <stdint.h>
#include <stdio.h>
#include <stdlib.h>
#include <string.h>
#include <unistd.h>
#include "environment.h"
#define APART __attribute__((noipa))
"""
SHORT, WIDE = ("rv32imac -Os",), ("rv32im -Og", "rv32im -O2", "rv32im -O0")
WRITE, READ, FREE = "Invalid write of size ", "Invalid read of size ", "Invalid free() / delete / delete[] / realloc()"
BRANCH, ADDRESS = "Conditional jump or move depends on uninitialised value(s)", "Use of uninitialised value of size 4"
LOST, UNSEEN = "definitely lost in loss record", "errors of the heap can't be found"

ENDS = [
    right("prints and returns 0", r'int main(void) { printf("harbour %05d\n", 231); return 0; }'),
    right("exits in a function, after what atexit was given", r"""
static void last(void) { puts("last"); }
APART void finish(void) { puts("done"); exit(0); }
int main(void) { atexit(last); finish(); return 1; }"""),
    right("is skipped", "int main(void) { return 77; }", 77),
    right("begins with a constructor", r"""
static int level;
__attribute__((constructor)) static void begin(void) { level = 3; }
int main(void) { assert(level == 3); return 0; }"""),
    wrong("a failed assert", 134, r"""
APART int twice(int level) { return level + level + 1; }
int main(void) { assert(twice(4) == 8); return 0; }"""),
    wrong("abort", 134, 'int main(void) { puts("gone"); abort(); }'),
    wrong("returns 1", 1, 'int main(void) { puts("FAIL"); return 1; }'),
    wrong("exits with 3 in a function", 3, "APART void judge(int count) { if (count) exit(3); } int main(void) { judge(2); return 0; }"),
    wrong("counts 256 failures in its status", 1, "APART int failures(void) { return 256; } int main(void) { return failures(); }",
          passes=STATUS),
    wrong("a trap", 133, "APART void stop(void) { __builtin_trap(); } int main(void) { stop(); return 0; }"),
    wrong("an illegal instruction", 132, 'int main(void) { asm volatile(".word 0"); return 0; }'),
    wrong("a call of a null pointer", 139, "int (*volatile handler)(void); int main(void) { return handler(); }"),
    wrong("a call of what is no function", 132, r"""
static uint32_t table[4];
int (*volatile handler)(void) = (int (*)(void))table;
int main(void) { return handler(); }"""),
    wrong("a call of an address that is no multiple of 4", 135, r"""
int (*volatile handler)(void);
int main(void) { handler = (int (*)(void))((uintptr_t)main + 2); return handler(); }""", only=WIDE),
    wrong("an atomic update at no multiple of 4", 135, r"""
static char room[8] __attribute__((aligned(4)));
int main(void) { int *volatile count = (int *)(room + 2); return __atomic_fetch_add(count, 1, __ATOMIC_SEQ_CST); }""", only=SHORT),
]
HANGS = [
    wrong("counts for ever", 124, "int main(void) { for (volatile unsigned count = 0; ; count++); }"),
    wrong("for (;;); at its end", 124, 'int main(void) { puts("done"); for (;;); }'),
    wrong("for (;;); after a memory error", WRITE + "1", r"""
APART void fill(char *text, int count) { for (int at = 0; at <= count; at++) text[at] = 'x'; }
int main(void) { char *text = malloc(8); fill(text, 8); free(text); for (;;); }"""),
    wrong("a handler of failed asserts that loops", 124, r"""
APART void failed(const char *what) { puts(what); for (;;); }
#define CHECK(what) ((what) ? (void)0 : failed(#what))
int main(void) { volatile int level = 3; CHECK(level == 4); return 0; }"""),
    wrong("endless recursion", 139, r"""
APART int depth(int level) { volatile char room[6000]; room[0] = level; return depth(level + 1) + room[0]; }
int main(void) { return depth(0); }"""),
    right("recursion of 10,000 calls", r"""
APART int depth(int level) { volatile char room[256]; room[0] = 1; return level ? depth(level - 1) + room[0] : 0; }
int main(void) { printf("%d\n", depth(10000)); return 0; }"""),
]
BLOCKS = [
    wrong("a byte after a block, written", WRITE + "1", r"""
APART void fill(char *text, int count) { for (int at = 0; at <= count; at++) text[at] = 'x'; }
int main(void) { char *text = malloc(10); fill(text, 10); free(text); return 0; }"""),
    wrong("a byte after a block, read", READ + "1", r"""
APART int sum(const char *bytes, int count) { int sum = 0; for (int at = 0; at <= count; at++) sum += bytes[at]; return sum; }
int main(void) { char *bytes = calloc(7, 1); int found = sum(bytes, 7); free(bytes); return found != 0; }"""),
    wrong("a byte before a block, written", WRITE + "1", r"""
APART char *end_of(char *text, int count) { return text + count; }
int main(void) { char *text = malloc(4), *at = end_of(text, 4); for (int i = 0; i < 5; i++) *--at = ' '; free(text); return 0; }"""),
    wrong("a byte before a block, read", READ + "1", r"""
APART int last(const char *text, int length) { return text[length - 1]; }
int main(void) { char *text = strdup(""); int is_line = last(text, strlen(text)) == '\n'; free(text); return is_line; }"""),
    wrong("a byte after a block of realloc", WRITE + "1", r"""
APART void put(char *text, int at, char letter) { text[at] = letter; }
int main(void) { char *text = malloc(12); text = realloc(text, 9); put(text, 9, 0); free(text); return 0; }"""),
    wrong("a letter more in a copy by strdup", WRITE + "1", r"""
APART void append(char *text, char letter) { size_t length = strlen(text); text[length] = letter; text[length + 1] = 0; }
int main(void) { char *text = strdup("harbour"); append(text, 's'); free(text); return 0; }"""),
    wrong("no room for the end of a text", WRITE, r"""
APART char *copy(const char *text) { char *made = malloc(strlen(text)); return strcpy(made, text); }
int main(void) { char *text = copy("berth"); int found = text[0]; free(text); return found != 'b'; }"""),
    wrong("sprintf into a block that is too small", WRITE, r"""
int main(void) { char *text = malloc(7); sprintf(text, "%d", 1234567); puts(text); free(text); return 0; }"""),
    wrong("a block is read after it was freed", READ + "4", r"""
struct berth { int depth; struct berth *next; };
APART void drop(struct berth *berth) { free(berth); }
int main(void) { struct berth *berth = calloc(1, sizeof *berth); drop(berth); return berth->depth; }"""),
    wrong("a block is written after it was freed", WRITE + "1", r"""
static char *kept;
APART void drop(void) { free(kept); }
int main(void) { kept = malloc(8); drop(); kept[2] = 1; return 0; }"""),
    wrong("a block is freed twice", FREE, r"""
APART void drop(void *block) { free(block); }
int main(void) { char *block = malloc(8); drop(block); drop(block); return 0; }"""),
    wrong("a variable is freed", FREE, r"""
APART void drop(void *block) { free(block); }
int main(void) { int level; drop(&level); return 0; }"""),
    wrong("the midst of a block is freed", FREE, r"""
APART char *skip(char *text) { while (*text == ' ') text++; return text; }
int main(void) { char *text = skip(strdup("  tide")); puts(text); free(text); return 0; }"""),
    wrong("a freed block is grown", FREE, r"""
APART void drop(void *block) { free(block); }
int main(void) { char *text = malloc(8); drop(text); text = realloc(text, 20); free(text); return 0; }"""),
    wrong("a null pointer is written", WRITE + "4", "int *volatile where; int main(void) { *where = 1; return 0; }"),
    wrong("an address without memory is written", WRITE + "4", r"""
#define DEVICE ((volatile uint32_t *)0xe0001000)
int main(void) { DEVICE[2] = 1; return 0; }"""),
    right("blocks of all sizes", r"""
int main(void)
{
    unsigned sum = 0;
    for (int size = 1; size < 70; size++) {
        char *text = malloc(size);
        memset(text, 'x', size);
        text[size - 1] = 0;
        sum += strlen(text);
        free(text);
    }
    printf("%u\n", sum);
    return 0;
}"""),
    right("a tree of blocks", r"""
struct node { int key; struct node *less, *more; };
static void add(struct node **at, int key)
{
    while (*at)
        at = key < (*at)->key ? &(*at)->less : &(*at)->more;
    *at = calloc(1, sizeof **at);
    (*at)->key = key;
}
static void drop(struct node *node)
{
    if (!node)
        return;
    drop(node->less);
    printf("%d ", node->key);
    drop(node->more);
    free(node);
}
int main(void)
{
    struct node *root = 0;
    for (int at = 0; at < 200; at++)
        add(&root, at * 61 % 199);
    drop(root);
    return 0;
}"""),
    right("a block that is kept to the end", 'char *kept; int main(void) { kept = strdup("tide"); puts(kept); return 0; }'),
]
LEAKS = [
    wrong("a leak", LOST, r"""
APART char *text_of(int level) { char *text = malloc(12); sprintf(text, "%d", level); return text; }
int main(void) { puts(text_of(42)); return 0; }"""),
    wrong("a leak of a list", LOST, r"""
struct berth { int depth; struct berth *next; };
static struct berth *first;
APART void add(int depth) { struct berth *berth = malloc(sizeof *berth); *berth = (struct berth){ depth, first }; first = berth; }
int main(void) { for (int depth = 0; depth < 3; depth++) add(depth); first = 0; return 0; }"""),
    wrong("a block of which only the midst is kept", "possibly lost in loss record", r"""
static char *kept;
APART void keep(char *text) { kept = text + 2; }
int main(void) { keep(strdup("  tide")); puts(kept); return 0; }"""),
    wrong("a block that nothing uses", LOST, "int main(void) { malloc(8); return 0; }", passes=LEFT_OUT,
          passes_in=("rv32im -Og", "rv32im -O2", "rv32imac -Os")),
]
UNSET = [
    wrong("a branch on a variable that isn't set", BRANCH, r"""
APART int parse(const char *text, int *level) { if (*text < '0') return -1; *level = *text - '0'; return 0; }
int main(void) { int level; parse("", &level); if (level > 3) puts("high"); return 0; }"""),
    wrong("a branch on a block that isn't set", BRANCH, r"""
APART int highest(const int *levels, int count)
{
    int found = 0;
    for (int at = 0; at < count; at++)
        if (levels[at] > found)
            found = levels[at];
    return found;
}
int main(void) { int *levels = malloc(4 * sizeof *levels); levels[0] = 5; printf("%d\n", highest(levels, 4)); free(levels); return 0; }"""),
    wrong("a branch on one bit that isn't set", BRANCH, r"""
struct flags { unsigned is_free : 1, is_deep : 1, is_swept : 1; };
APART void begin(struct flags *flags) { flags->is_free = 1; flags->is_deep = 0; }
int main(void) { struct flags flags; begin(&flags); if (flags.is_swept) puts("swept"); return 0; }"""),
    wrong("an index that isn't set", ADDRESS, r"""
int levels[256];
APART void choose(unsigned char *at) { }
int main(void) { unsigned char at; choose(&at); return levels[at]; }"""),
    wrong("a pointer that isn't set", ADDRESS, r"""
struct berth { int depth; struct berth *next; };
APART struct berth *made(void) { struct berth *berth = malloc(sizeof *berth); berth->depth = 1; return berth; }
int main(void) { struct berth *berth = made(); volatile int depth = berth->next->depth; free(berth); return 0; }"""),
    wrong("a function that isn't set", 139, r"""
struct device { int state; int (*handler)(void); };
APART void begin(struct device *device) { device->state = 1; }
int main(void) { struct device device; begin(&device); return device.handler(); }"""),
    wrong("bytes of a block that aren't set are written", "Syscall param write(buf) points to uninitialised byte(s)", r"""
int main(void) { char *text = malloc(8); memcpy(text, "tide\n", 5); write(1, text, 8); free(text); return 0; }"""),
    wrong("the gap of a structure is written", "Syscall param write(buf) points to uninitialised byte(s)", r"""
struct record { char kind; int level; };
APART void send(const struct record *record) { write(1, record, sizeof *record); }
int main(void) { struct record record; record.kind = 'a'; record.level = 3; send(&record); return 0; }"""),
    wrong("a number that isn't set is printed", BRANCH, r"""
APART void measure(int *level) { }
int main(void) { int level; measure(&level); printf("%d\n", level); return 0; }"""),
    wrong("a status that isn't set", "Syscall param exit(status) contains uninitialised byte(s)", r"""
APART int result(const int *levels) { return levels[1]; }
int main(void) { int *levels = malloc(8); levels[0] = 0; int found = result(levels); free(levels); return found; }"""),
    wrong("more is used than was read", BRANCH, r"""
int main(void) { char line[8]; read(0, line, sizeof line); puts(line[6] == '\n' ? "a line" : "none"); return 0; }""", given=b"tide"),
    wrong("a variable of a function that has ended", READ + "4", r"""
static int *kept;
APART void keep(void) { int level = 5; kept = &level; asm volatile("" : : "r"(kept) : "memory"); }
int main(void) { keep(); return *kept == 5 ? 0 : 1; }"""),
    right("copies of what isn't set", r"""
struct record { char kind; int level; char name[13]; };
APART void copy(struct record *to, const struct record *from) { *to = *from; }
int main(void)
{
    struct record *first = malloc(sizeof *first), *second = malloc(sizeof *second);
    first->level = 7;
    strcpy(first->name, "tide");
    copy(second, first);
    printf("%d %s\n", second->level, second->name);
    free(first);
    free(second);
    return 0;
}"""),
    right("only the bits that are set are used", r"""
struct flags { unsigned is_free : 1, depth : 5, rest : 26; };
APART void begin(struct flags *flags) { flags->is_free = 1; flags->depth = 21; }
int main(void) { struct flags flags; begin(&flags); if (flags.is_free && flags.depth == 21) puts("free"); return 0; }"""),
]
STREAMS = [
    right("writes to descriptor 2", r"""
static void say(int file, const char *text) { write(file, text, strlen(text)); }
int main(void) { say(1, "one\n"); say(2, "two\n"); say(1, "three"); say(2, "four"); return 0; }"""),
    right("prints more than 64 KiB", r"""
static const char text[] = "a line of some forty letters is here, and";
int main(void) { for (int line = 0; line < 2000; line++) write(1, text, sizeof text - line % 2); return 0; }"""),
    right("writes 65,537 bytes at once", r"""
static const char text[65537] = { [0 ... 65536] = 'x' };
int main(void) { return write(1, text, sizeof text) != sizeof text; }"""),
    right("writes until all is written", r"""
static const char text[150000] = { [0 ... 99999] = 'x', [100000 ... 149999] = 'y' };
int main(void)
{
    for (unsigned at = 0; at < sizeof text;) {
        int count = write(1, text + at, sizeof text - at < 20000 ? sizeof text - at : 20000);
        if (count > 0)
            at += count;
    }
    return 0;
}"""),
    right("reads to the end of its input", r"""
int main(void)
{
    static char bytes[1000];
    unsigned sum = 0, size = 0;
    for (int count; (count = read(0, bytes, sizeof bytes)) > 0; size += count)
        for (int at = 0; at < count; at++)
            sum = sum * 31 + (unsigned char)bytes[at];
    printf("%u %u %d\n", size, sum, (int)read(0, bytes, 1));
    return 0;
}""", given=bytes(range(256)) * 80),
    right("reads lines", r"""
int main(void) { char line[40]; while (fgets(line, sizeof line, stdin)) printf("%d %s", (int)strlen(line), line); return 0; }""",
          given=b"harbour\n\ntide 7\nberth"),
    wrong("its input is too short", 2, r"""
int main(void) { char line[8]; return read(0, line, sizeof line) == sizeof line ? 0 : 2; }""", given=b"tide"),
    wrong("a descriptor that isn't open", 1, 'int main(void) { return write(7, "lost\\n", 5) == 5 ? 0 : 1; }'),
    wrong("output that has no room, and nobody looks", 125, 'int main(void) { write(1, "lost\\n", 5); return 0; }', is_full=True),
    wrong("more is written than the block has", "Syscall param write(buf) points to unaddressable byte(s)", r"""
int main(void) { char *text = calloc(9, 1); write(1, text, 10); free(text); return 0; }"""),
    wrong("more is read than the block has room for", "Syscall param read(buf) points to unaddressable byte(s)", r"""
int main(void) { char *text = malloc(6); int count = read(0, text, 8); free(text); return count < 0; }""", given=b"harbours"),
    wrong("a page that a call should make read-only is written", "", r"""
enum { MPROTECT = 226, PAGE = 4096, READ = 1 };
static char page[PAGE] __attribute__((aligned(PAGE)));
int main(void) { call_environment(MPROTECT, (long)page, PAGE, READ); page[7] = 1; return 0; }""", passes=UNKNOWN),
    wrong("a call that nobody knows, and the test looks", 1, "int main(void) { return call_environment(1999, 0, 0, 0) == 0 ? 0 : 1; }"),
]


def own(names: str, end: int | str, label: str, **more) -> Test:
    """A test with a heap of its own, two functions with these names, and an error in a block of it, beside malloc or without that."""
    take, give = names.split()
    has_malloc = more.get("heap", True)
    return wrong(label, end, f"""
static char room[4096];
static size_t used;
APART void *{take}(size_t size) {{ void *block = room + used; used += (size + 7) / 8 * 8; return block; }}
APART void {give}(void *block) {{ if (block == room) used = 0; }}
APART void fill(char *text, int count) {{ for (int at = 0; at <= count; at++) text[at] = 'x'; }}
APART void use(void **place) {{ {"free(*place); *place = malloc(4); free(*place);" if has_malloc else ""} }}
int main(void) {{ void *place = 0; char *text = {take}(10); use(&place); fill(text, 10); {give}(text); return 0; }}""", **more)


OVER = """
APART void fill(char *text, int count) { for (int at = 0; at <= count; at++) text[at] = 'x'; }
int main(void) { char *text = malloc(10); fill(text, 10); free(text); return 0; }"""
HEAPS = [
    own("pvPortMalloc vPortFree", UNSEEN, "the heap of FreeRTOS beside malloc"),
    own("pvPortMalloc vPortFree", UNSEEN, "the heap of FreeRTOS without malloc", heap=False),
    own("k_malloc k_free", UNSEEN, "the heap of Zephyr without malloc", heap=False),
    own("tlsf_malloc tlsf_free", UNSEEN, "the heap TLSF beside malloc"),
    own("pool_alloc pool_free", UNSEEN, "a pool whose name has alloc, without malloc", heap=False),
    own("pool_alloc pool_free", UNSEEN, "a pool whose name has alloc, beside malloc", passes=BESIDE),
    own("pool_take pool_give", UNSEEN, "a pool by other names, without malloc", heap=False, passes=UNNAMED),
    own("pool_take pool_give", UNSEEN, "a pool by other names, beside malloc", passes=UNNAMED),
    wrong("a stripped test", UNSEEN, OVER, options=("-s",)),
    wrong("a test without lines", WRITE + "1", OVER, options=("-Wl,--strip-debug",)),
]
PLACES = [
    wrong("a constant is written", "", r"""
static const int limits[4] = { 1, 2, 3, 4 };
const int *volatile where = limits;
int main(void) { *(int *)where = 9; printf("%d\n", *where); return 0; }""", passes=RIGHTS),
    wrong("a text of the program is written", "", r"""
APART void upper(char *text) { for (; *text; text++) *text -= 'a' - 'A'; }
int main(void) { char *text = "tide"; upper(text); puts(text); return 0; }""", passes=RIGHTS),
    wrong("code is written", "", r"""
APART __attribute__((aligned(4))) int spare(void) { return 3; }
int main(void) { *(volatile uint32_t *)spare = 0; return 0; }""", passes=RIGHTS),
]
LANGUAGE = [
    right("large frames", r"""
APART int sum(const char *room, int size) { int sum = 0; for (int at = 0; at < size; at++) sum += room[at]; return sum; }
int main(void) { char room[40000]; memset(room, 1, sizeof room); printf("%d\n", sum(room, sizeof room)); return 0; }"""),
    right("alloca and arrays of variable length", r"""
APART int fill(int *levels, int count) { int sum = 0; for (int at = 0; at < count; at++) sum += levels[at] = at; return sum; }
APART int with_array(int count) { int levels[count]; return fill(levels, count); }
APART int on_stack(int count) { return fill(alloca(count * sizeof(int)), count); }
int main(void) { for (int count = 1; count < 40; count++) printf("%d %d\n", with_array(count), on_stack(count)); return 0; }"""),
    right("setjmp and longjmp", r"""
static jmp_buf back;
APART void parse(int depth) { char room[64]; memset(room, depth, sizeof room); if (depth == 5) longjmp(back, room[9]); parse(depth + 1); }
int main(void)
{
    volatile int tries = 0;
    int came = setjmp(back);
    printf("%d %d\n", tries, came);
    if (tries++ < 3)
        parse(tries);
    return 0;
}"""),
    right("sprintf, snprintf and sscanf", r"""
int main(void)
{
    char text[64], word[8];
    int level, count;
    sprintf(text, "%-8s|%08x|%+d|%c|%5.2f|%e", "tide", 0xbeef, 7, 'x', 3.14159, 12345.678);
    puts(text);
    count = snprintf(word, sizeof word, "%s", text);
    printf("%d %s\n", count, word);
    count = sscanf("berth 12 0x1f", "%7s %d %i", word, &level, &count) == 3 ? count : -1;
    printf("%s %d %d\n", word, level, count);
    return 0;
}"""),
    right("qsort and bsearch", r"""
static int compare(const void *one, const void *two) { return strcmp(*(char *const *)one, *(char *const *)two); }
int main(void)
{
    const char *names[] = { "tide", "berth", "harbour", "anchor", "quay", "buoy", "mole" }, *name = "quay";
    size_t count = sizeof names / sizeof *names;
    qsort(names, count, sizeof *names, compare);
    for (size_t at = 0; at < count; at++)
        puts(names[at]);
    const char **found = bsearch(&name, names, count, sizeof *names, compare);
    return !found || *found != names[5];
}"""),
    right("strtok and its like", r"""
int main(void)
{
    char *text = strdup("north;east,,south west");
    for (char *word = strtok(text, ";, "); word; word = strtok(NULL, ";, "))
        printf("<%s>", word);
    free(text);
    printf("%s %s %d %d\n", strchr("tide", 'd'), strstr("harbour", "bou"), (int)strspn("aab", "a"), strncmp("berths", "berthe", 5));
    return 0;
}"""),
    right("numbers of 64 bits", r"""
int main(void)
{
    volatile long long large = 0x123456789abcdefLL, small = -1000003;
    volatile unsigned long long most = 0xfedcba9876543210ULL;
    printf("%lld %lld %lld\n", large * small, large / small, large % small);
    printf("%llu %llu %llx\n", most / 10007, most % 10007, most << 13 | most >> 51);
    return 0;
}"""),
    right("numbers with a point", r"""
int main(void)
{
    volatile double third = 1.0 / 3, sum = 0;
    volatile float half = 0.5f;
    for (int at = 1; at < 50; at++)
        sum += third / at * half;
    printf("%.12f %d %.6g %.3e\n", sum, (int)(sum * 1000), strtod("-12.5e3", NULL), (double)(half * 3e-9f));
    return 0;
}"""),
    right("packed structures, unions and bit fields", r"""
struct __attribute__((packed)) header { uint8_t kind; uint32_t size; uint16_t sum; };
union word { uint32_t all; uint8_t bytes[4]; struct { unsigned low : 5, high : 27; }; };
APART void put(struct header *header, uint32_t size) { header->kind = 2; header->size = size; header->sum = size >> 16; }
int main(void)
{
    struct header header;
    union word word = { 0x12345678 };
    put(&header, 0xcafe1234);
    word.high += 3;
    printf("%d %x %x %d %x %x\n", (int)sizeof header, (unsigned)header.size, header.sum, word.low, word.bytes[0], (unsigned)word.all);
    return 0;
}"""),
]
TESTS = [*ENDS, *HANGS, *BLOCKS, *LEAKS, *UNSET, *STREAMS, *HEAPS, *PLACES, *LANGUAGE]
