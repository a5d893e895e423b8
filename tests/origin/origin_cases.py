"""The programs of tests/origin/test-origin: in assembly, in C, and random ones."""
from dataclasses import dataclass, field
from typing import List, Tuple

from limit_rows import USES

EXIT = "li a7, 93; ecall"
MALLOC = "li a7, 2001; ecall"
DATA = 0x10400  # where the programs in assembly have room for variables


@dataclass
class Case:
    """A program in assembly, the options that the tool is given, its status, texts that it tells in turn, and the marks
    of its certificate. `hooks` are the functions of its heap by name, at labels."""

    label: str
    code: str
    status: int
    told: Tuple[str, ...]
    marks: List[str] = field(default_factory=list)
    options: List[str] = field(default_factory=list)
    given: bytes = b""
    hooks: Tuple[str, ...] = ()


BLOCK = f"li a0, 8; {MALLOC}; lw t0, 4(a0); beq t0, zero, .+8; nop; li a0, 0; {EXIT}"
FRAME = f"addi sp, sp, -16; lw t0, 8(sp); beq t0, zero, .+8; nop; li a0, 0; {EXIT}"
MOVED = f"""addi sp, sp, -32; lw t0, 8(sp); li t1, {DATA}; 3 * nop; sw t0, 0(t1); lw t2, 0(t1); addi t2, t2, 1
sw t2, 16(sp); nop; lw t3, 16(sp); bne t3, zero, .+8; nop; li a0, 0; {EXIT}"""
UPDATED = f"""addi sp, sp, -32; lw t0, 8(sp); li t1, {DATA}; sw zero, 0(t1); amoor.w zero, t0, (t1); 3 * nop; lr.w t2, (t1)
bne t2, zero, .+8; nop; li a0, 0; {EXIT}"""
KEPT = f"""addi sp, sp, -32; lw t0, 8(sp); csrrw zero, mscratch, t0; li t0, 0; 3 * nop; csrrs t1, mscratch, zero; sw t1, 16(sp)
nop; lw t2, 16(sp); bne t2, zero, .+8; nop; li a0, 0; {EXIT}"""
TWO = f"""addi sp, sp, -16; li a0, 8; {MALLOC}; lw t0, 4(a0); lw t1, 4(sp); xor t0, t0, t1
beq t0, zero, .+8; nop; li a0, 0; {EXIT}"""
# One value is in a register alone before the other is made.
APART = f"""li a0, 8; {MALLOC}; lw t0, 4(a0); li t2, 100
again: addi t2, t2, -1; bne t2, zero, again; addi sp, sp, -16; lw t1, 4(sp); xor t0, t0, t1; li t2, 100
more: addi t2, t2, -1; bne t2, zero, more; beq t0, zero, .+8; nop; li a0, 0; {EXIT}"""
ERRORS = f"""addi sp, sp, -16; lw t0, 0(sp); beq t0, zero, .+8; nop; lw t1, 4(sp); lw t2, 0(t1)
lw a0, 8(sp); {EXIT}"""
GROWN = f"""li a0, 8; {MALLOC}; mv s0, a0; li t0, 5; sw t0, 0(s0); mv a0, s0; li a1, 64; li a7, 2004; ecall
lw t0, 4(a0); beq t0, zero, .+8; nop; li a0, 0; {EXIT}"""
NEW_PART = GROWN.replace("lw t0, 4(a0)", "lw t0, 32(a0)")
SENT = f"""addi sp, sp, -16; li t0, 7; sb t0, 0(sp); sb t0, 2(sp); sb t0, 3(sp); sb t0, 6(sp)
li a0, 1; mv a1, sp; li a2, 8; li a7, 64; ecall; li a0, 0; {EXIT}"""
SIZE = f"addi sp, sp, -16; lw a0, 0(sp); {MALLOC}; li a0, 0; {EXIT}"
PLAIN = f"li a0, 0; li t0, {DATA}; lw t1, 0(t0); beq t1, zero, .+8; nop; {EXIT}"
BY_INPUT = f"""addi sp, sp, -16; li a0, 0; li a1, {DATA}; li a2, 1; li a7, 63; ecall; li t1, {DATA}; lbu t0, 0(t1)
beq t0, zero, .+8; lw t0, 4(sp); beq t0, zero, .+8; nop; li a0, 0; {EXIT}"""
LONG = f"""li a0, 8; {MALLOC}; li t1, 30000
again: addi t1, t1, -1; bne t1, zero, again; lw t0, 4(a0); beq t0, zero, .+8; nop; li a0, 0; {EXIT}"""
FAR = f"""lui t0, 20; sub t1, sp, t0; lui t0, 2; li a0, 20000; {MALLOC}; add t0, a0, t0; lb t1, 3(t0)
lui t2, 5; sub sp, sp, t2; sb t1, 5(sp); nop; lb t1, 5(sp); bge t1, zero, .+8; nop; li a0, 0; {EXIT}"""
# A block behind 32 MiB of others.
BEHIND = f"""lui a0, 4096; {MALLOC}; lui a0, 4096; {MALLOC}; li a0, 8; {MALLOC}; lw t0, 4(a0); beq t0, zero, .+8; nop; li a0, 0
{EXIT}"""
BY_NAME = f"""jal ra, start
malloc: nop; nop
start: li a0, 12; jal ra, malloc; lh t0, 6(a0); blt t0, zero, .+8; nop; li a0, 0; {EXIT}"""
LOST = f"""addi sp, sp, -16; lw t0, 0(sp); li t1, 33000
again: addi t1, t1, -1; bne t1, zero, again; beq t0, zero, .+8; nop; li a0, 0; {EXIT}"""

# A loop copies forty bytes of a block, of which two are set.
COPIED = f"""li a0, 40; {MALLOC}; li t0, 7; sb t0, 3(a0); sb t0, 21(a0); li a1, {DATA}; li t1, 40
again: lbu t0, 0(a0); sb t0, 0(a1); addi a0, a0, 1; addi a1, a1, 1; addi t1, t1, -1; bne t1, zero, again
li a0, 1; li a1, {DATA}; li a2, 40; li a7, 64; ecall; li a0, 0; {EXIT}"""

CASES = [
    Case("a block", BLOCK, 0, ("Conditional", "origin 1: 4 bytes at 0x40000014, undefined in step 2 by a call",
                               "4 bytes inside a block of size 8 alloc'd", "step 3: 4 bytes", "certificate: "),
         ["mark 3 0x40000014 4 defined"]),
    Case("a frame after a boot", USES, 0, ("Conditional", "undefined in step 6000002 by a new stack frame\n   at 0x00010010: ???\n",
                                           "step 6000006: 4 bytes at 0x7fffffe4 read by 0x00010020"),
         ["mark 6000003 0x7fffffe4 4 defined"], ["--last=6000020", "--limit=6000020"]),
    Case("a frame", FRAME, 0, ("undefined in step 0 by a new stack frame\n   at 0x00010000: ???\n step 1: ",),
         ["mark 1 0x7fffffe8 4 defined"]),
    Case("moves", MOVED, 0, ("step 1: 1 byte at 0x7fffffd8 read by 0x00010004",
                             "step 7: 1 byte at 0x00010400 written", "step 8: 1 byte at 0x00010400 read",
                             "step 10: 1 byte at 0x7fffffe0 written", "step 12: 1 byte at 0x7fffffe0 read"),
         ["mark 1 0x7fffffd8 1 defined"]),
    Case("moves by atomic instructions", UPDATED, 0, (
        "step 1: 4 bytes at 0x7fffffd8 read by 0x00010004", "step 5: 4 bytes at 0x00010400 written by 0x00010014",
        "step 9: 4 bytes at 0x00010400 read by 0x00010024"), ["mark 1 0x7fffffd8 4 defined"], ["--isa=rv32imac"]),
    Case("a move by a control register", KEPT, 0, (
        "step 1: 4 bytes at 0x7fffffd8 read by 0x00010004", "step 8: 4 bytes at 0x7fffffe0 written by 0x00010020",
        "step 10: 4 bytes at 0x7fffffe0 read by 0x00010028"), ["mark 1 0x7fffffd8 4 defined"], ["--isa=rv32imc"]),
    Case("with other regions", TWO, 0, ("origin 1: 4 bytes at 0x0003ffe4, undefined in step 0 by a new stack frame",
                                        "origin 2: 4 bytes at 0x90000014, undefined in step 3 by a call of the heap"),
         ["mark 1 0x0003ffe4 4 defined", "mark 4 0x90000014 4 defined"], ["--heap-region=0x90000000", "--stack-region=0x20000..0x40000"]),
    Case("two origins", TWO, 0, (" it hangs on 2 origins together", "origin 1: ", "stack frame", "origin 2: ",
                                 "a call of the heap", "with these 2 marks"),
         ["mark 1 0x7fffffe4 4 defined", "mark 4 0x40000014 4 defined"]),
    Case("two origins, of which one was in a register before the other", APART, 0, ("2 origins",),
         ["mark 3 0x40000014 4 defined", "mark 206 0x7fffffe4 4 defined"]),
    Case("the first of three errors", ERRORS, 0, ("Conditional",), ["mark 1 0x7fffffe0 4 defined"]),
    Case("the second error", ERRORS, 0, ("Use of uninitialised value of size 4",), ["mark 1 0x7fffffe4 4 defined"],
         ["--error=2"]),
    Case("the third error", ERRORS, 0, ("Syscall param exit(status)",), ["mark 1 0x7fffffe8 4 defined"], ["--error=3"]),
    Case("no fourth error", ERRORS, 1, ("no such error: at step 5000 3 errors depend",), [], ["--error=4"]),
    Case("too early for the third error", ERRORS, 1, ("no such error: at step 6 2 errors",), [],
         ["--error=3", "--last=6"]),
    Case("a block that moved", GROWN, 0, ("undefined in step 2 by a call of the heap", "read by", "written by"),
         ["mark 3 0x40000014 4 defined"]),
    Case("the new part of a block that moved", NEW_PART, 0, ("undefined in step 9 by", "of size 64 alloc'd"),
         ["mark 10 0x40000060 4 defined"]),
    Case("bytes that are sent, with others between", SENT, 0, ("Syscall param write(buf)", "origin 1: 1 byte at "),
         ["mark 1 0x7fffffe1 1 defined", "mark 1 0x7fffffe4 2 defined", "mark 1 0x7fffffe7 1 defined"]),
    Case("many bytes that a loop copies", COPIED, 0, ("moves of the first byte:", "1 byte at 0x40000010 read",
                                                      "1 byte at 0x00010400 written", "1 byte at 0x00010400 read"),
         ["mark 3 0x40000010 3 defined", "mark 3 0x40000014 17 defined", "mark 3 0x40000026 18 defined"]),
    Case("a size", SIZE, 0, ("Syscall param malloc(size)",), ["mark 1 0x7fffffe0 4 defined"]),
    Case("no error", PLAIN, 1, ("no such error: at step 5000 0 errors",)),
    Case("a line that marks", PLAIN, 0, ("undefined by the line `mark 2 0x10400 4 undefined`",),
         ["mark 2 0x00010400 4 defined"], ["--line=mark 2 0x10400 4 undefined"]),
    Case("a line that marks from the start", PLAIN, 0, ("by the line `mark 0 66560 2 undefined`",),
         ["mark 0 0x00010400 2 defined"], ["--line=mark 0 66560 2 undefined"]),
    Case("a line that marks code", PLAIN, 0, ("by the line `mark 0 0x1000c 4 undefined`",), None,
         ["--line=mark 0 0x1000c 4 undefined"]),
    Case("no error without an edit", BY_INPUT, 1, ("no such error",), given=b"\0"),
    Case("an error behind an edit", BY_INPUT, 0, ("stack frame",), ["mark 1 0x7fffffe4 4 defined"],
         ["--line", "input 0 1"], b"\0"),
    Case("an error behind a patch", BY_INPUT, 0, ("stack frame",), ["mark 1 0x7fffffe4 4 defined"],
         ["--line", "patch 0x10028 0x13", "--line=option callers 1"], b"\0"),
    Case("marks of the user stay", TWO, 0, ("origin 1: ",), ["mark 4 0x40000014 4 defined"],
         ["--line=mark 1 0x10400 4 noaccess", "--line=mark 1 0x7fffffe4 4 defined", "--line=mark 1 0x10404 4 defined",
          "--line=unmark 2"]),
    Case("the short form", LONG, 0, ("undefined before step 55", "a block of size 8 alloc'd"), None, ["--short"]),
    Case("the long form", LONG, 0, ("undefined in step 2 by",), ["mark 3 0x40000014 4 defined"], ["--last=200000"]),
    Case("far into a heap and a stack", FAR, 0, ("by a call of the heap", "of size 20000", "written", "read"),
         ["mark 7 0x40002013 1 defined"]),
    Case("behind 32 MiB of other blocks", BEHIND, 0, ("undefined in step 8 by", "of size 8 alloc'd"), ["mark 9 0x42000054 4 defined"]),
    Case("a heap by name", BY_NAME, 0, ("undefined in step 3 by malloc", "of size 12 alloc'd"),
         ["mark 4 0x40000016 2 defined"], hooks=("malloc",)),
    Case("a value that was in a register for long", LOST, 1, ("no certificate: ",), [], ["--last=100000"]),
]

FIELD = """#include <stdlib.h>
struct sensor { int id, offset; };
static struct sensor kept[3];
static __attribute__((noipa)) void start(struct sensor *it, int id) { it->id = id; if (id != 2) it->offset = 5; }
static __attribute__((noipa)) int shifted(const struct sensor *it) { return it->offset > 3; }
int main(void)
{
    struct sensor *new = malloc(sizeof *new);
    start(new, 2);
    kept[1] = *new;
    int sum = shifted(&kept[1]);
    free(new);
    return sum;
}
"""
MEMBER = """struct options { int level; unsigned char mode; };
static __attribute__((noipa)) void set(struct options *it, int level) { it->level = level; }
static __attribute__((noipa)) int used(struct options it) { return it.mode == 3 ? it.level : 0; }
static __attribute__((noipa)) int parse(int level) { struct options it; set(&it, level); return used(it); }
int main(void) { return parse(7); }
"""
BOTH = """#include <stdlib.h>
static __attribute__((noipa)) int mixed(const int *one, const int *other) { return (*one ^ *other) & 0xff00; }
int main(void)
{
    int local[2];
    int *block = malloc(8);
    __asm__ volatile("" : : "r"(local), "r"(block) : "memory");
    int sum = mixed(&block[1], &local[1]);
    free(block);
    return sum < 300 ? 1 : 2;
}
"""
# A program, and texts that are told of it at each level.
C_CASES = [("a field that isn't set", FIELD, ("by malloc", "of size 8 alloc'd", "main (case.c:8)", "main (case.c:10)")),
           ("a member of a local variable", MEMBER, ("1 byte at 0x7f", "by a new stack frame", "parse (case.c:4)")),
           ("a block and a local variable", BOTH, ("2 origins", "stack frame", "main (case.c:", "by malloc"))]


def random_code(dice):
    """A program that moves, mixes and tests words of a frame, of a block and of static memory, some of them set."""
    places = ["sp", "s0", "s1"]

    def place():
        return f"{4 * dice.randrange(4)}({dice.choice(places)})"

    def move():
        to, source, other = place(), place(), place()
        mix = dice.choice(["add", "sub", "and", "or", "xor", "mul", "sltu"])
        at, away = dice.choice(places), dice.randrange(16)
        return dice.choice([
            f"lw t0, {source}; lw t1, {other}; {mix} t0, t0, t1; sw t0, {to}", f"lw t0, {source}; sw t0, {to}",
            f"lbu t0, {away}({at}); sb t0, {dice.randrange(16)}({dice.choice(places)})",
            f"lw t0, {source}; srli t0, t0, {dice.randrange(24)}; sw t0, {to}", f"lw s{dice.randrange(2, 5)}, {source}",
            f"sw s{dice.randrange(2, 5)}, {to}", f"li t0, {dice.randrange(2000)}; sw t0, {to}",
            f"lw t0, {source}; {dice.choice(['beq', 'bltu', 'bge'])} t0, s2, .+8; sw zero, {to}",
            "addi sp, sp, -16; lw s4, 4(sp); addi sp, sp, 16",
            "mv a0, s0; li a1, 24; li a7, 2004; ecall; mv s0, a0"])
    lines = [f"addi sp, sp, -{16 * dice.randrange(1, 4)}", "li a0, 16", MALLOC, "mv s0, a0", f"li s1, {DATA}"]
    lines += [move() for _ in range(dice.randrange(6, 24))]
    lines += [f"lw t0, {place()}; beq t0, zero, .+8; nop" for _ in range(3)]
    return "\n".join(lines) + f"\nli a0, 1; mv a1, s1; li a2, 16; li a7, 64; ecall; li a0, 0; {EXIT}"
