"""Sessions with `--limit`, and their replies, for test-look: programs that boot for millions of steps before they do anything else.

The replies were worked out by an interpreter that runs from step zero for each of them, and by one that holds machines as far apart as the
limit asks for. Of a report the lines of 0 bytes are left out, of `look registers` the registers that are 0 and defined."""
from typing import NamedTuple

# Two steps a turn, after two to load their number.
BOOT = "li t0, {}; turn: addi t0, t0, -1; bne t0, zero, turn; "
READS = BOOT + "addi sp, sp, -16; li a7, 63; li a0, 0; mv a1, sp; li a2, 1; ecall; lbu a0, 0(sp); li a7, 93; ecall"
COUNTS = "auipc s0, 0; again: addi t0, t0, 1; j again"
LOADS = BOOT.format(3000000) + "auipc s0, 0; lw a0, 20(s0); addi a0, a0, 1; ebreak; .word 0; .word 0x29"
ADDS = (BOOT.format(3000000) + "li a0, 1; li a1, 2; add a2, a0, a1; sw a2, -4(sp); lw a3, -4(sp); beq a3, zero, end; end: ebreak")
STORES = ("auipc s0, 0; lui s1, 0x20; sw s1, 0(s1); " + BOOT.format(3500000) + "sw s1, 64(s0); lw a0, 0(s1); end: j end")
COMPARES = (BOOT.format(3000000) + "addi sp, sp, -16; li a7, 63; li a0, 0; mv a1, sp; li a2, 1; ecall; lbu a0, 0(sp); li a1, 97; "
            "bne a0, a1, other; li a0, 1; other: li a7, 93; ecall")
SKIPS = (BOOT.format(3000000) + "li a0, 3; li a1, 4; mul a2, a0, a1; bne a2, zero, other; lw a3, 0(zero); other: mv a0, a2; li a7, 93; "
         "ecall")
USES = (BOOT.format(3000000) + "addi sp, sp, -16; sw t0, 0(sp); lw a0, 0(sp); beq a0, zero, next; next: lw a1, 4(sp); "
        "bne a1, zero, end; end: ebreak")
SUMS = ("definitely lost", "indirectly lost", "possibly lost", "still reachable", "suppressed")
COUNT = " (suppressed: 0 from 0)"


class Row(NamedTuple):
    """What it shows, the program and its input, a command with its options, lines after `> ` with their replies, of which `ok` is left out,
    and whether it has so many steps that it belongs to the long lane."""

    label: str
    program: str
    given: bytes
    words: str
    script: str
    is_long: bool = False

    def lines(self):
        """Each line with the whole of its reply."""
        for part in ("\n" + self.script.strip("\n")).split("\n> ")[1:]:
            line, *reply = part.split("\n")
            yield line, whole(line, reply) or ["ok"]


def whole(line, reply):
    """A reply with what is left out of it."""
    if line == "report" and not reply[0].startswith("refused"):
        return [*reply[:-1], *(f"{kind}: 0 bytes in 0 blocks" for kind in SUMS), f"ERROR SUMMARY: {reply[-1]}{COUNT}"]
    if line == "look registers":
        named = {it.split(" ")[0]: it for it in reply}
        return [reply[0], *(named.get(f"x{r}", f"x{r} 0x00000000 0x00000000") for r in range(1, 32))]
    return reply


ROWS = [
    Row("a boot of 28,000,002 steps, and a byte that is read after it", READS.format(14000000), b"a", "look --limit 30000000", """
> goto 30000000
> report
step 30000000
state exited 97
input 1 of 1
output 0
0 errors from 0 contexts
> worked
worked 30000000
> look calls 28000000 30000000
28000007 input 1
end
> input 0 0x62
> report
step 30000000
state exited 98
input 1 of 1
output 0
0 errors from 0 contexts
> worked
worked 32008832
> goto 28000008
> look registers
state running 0x00010028
x2 0x7fffffe0 0x00000000
x10 0x00000001 0x00000000
x11 0x7fffffe0 0x00000000
x12 0x00000001 0x00000000
x17 0x0000003f 0x00000000
> look input
input 1 1 no
""", is_long=True),
    Row("without the option the last step is the usual one", READS.format(14000000), b"a", "look", """
> goto 4194305
refused 5
> mark 4194305 0x10000 4 undefined
refused 5
> skip 4194305
refused 5
> look calls 0 4194305
refused 5
> look next run 0x10000 4 4194305
refused 5
> look last run 0x10000 4 4194305
refused 5
> goto 4194304
> report
step 4194304
state running 0x00010008
input 0 of 1
output 0
0 errors from 0 contexts
> worked
worked 4194304
> mark 4193280 0x20000 4 defined
> report
step 4194304
state running 0x00010008
input 0 of 1
output 0
0 errors from 0 contexts
> worked
worked 4195328
"""),
    Row("each line ends at the limit", READS.format(2600000), b"", "look --limit 5000000", """
> goto 5000001
refused 5
> mark 5000001 0x10000 4 undefined
refused 5
> set 5000001 x10 1
refused 5
> flip 5000001 x10 1
refused 5
> write 5000001 0x10000 4 1
refused 5
> skip 5000001
refused 5
> look calls 5000001 0
refused 5
> look calls 0 5000001
refused 5
> look next run 0x10000 4 5000001
refused 5
> look last run 0x10000 4 5000001
refused 5
> goto 5000000
> set 5000000 x10 7
> look registers
state running 0x00010008
x2 0x7ffffff0 0x00000000
x5 0x000186a1 0x00000000
x10 0x00000007 0x00000000
> report
step 5000000
state running 0x00010008
input 0 of 0
output 0
0 errors from 0 contexts
> goto 4294967296
refused 2
"""),
    Row("the steps that are executed again", COUNTS, b"", "look --limit 30000000", """
> goto 20000000
> report
step 20000000
state running 0x00010008
input 0 of 0
output 0
0 errors from 0 contexts
> worked
worked 20000000
> mark 19996671 0x20000 4 defined
> report
step 20000000
state running 0x00010008
input 0 of 0
output 0
0 errors from 0 contexts
> worked
worked 20011520
> mark 19996672 0x20000 4 defined
> report
step 20000000
state running 0x00010008
input 0 of 0
output 0
0 errors from 0 contexts
> worked
worked 20014848
> mark 8192 0x20000 4 defined
> report
step 20000000
state running 0x00010008
input 0 of 0
output 0
0 errors from 0 contexts
> worked
worked 40006656
> mark 8191 0x20000 4 defined
> report
step 20000000
state running 0x00010008
input 0 of 0
output 0
0 errors from 0 contexts
> worked
worked 60006656
> unmark 0
> report
step 20000000
state running 0x00010008
input 0 of 0
output 0
0 errors from 0 contexts
> worked
worked 60018176
> unmark 0
> report
step 20000000
state running 0x00010008
input 0 of 0
output 0
0 errors from 0 contexts
> worked
worked 60021504
> goto 20005000
> report
step 20005000
state running 0x00010008
input 0 of 0
output 0
0 errors from 0 contexts
> worked
worked 60029832
> goto 5
> report
step 5
state running 0x00010004
input 0 of 0
output 0
0 errors from 0 contexts
> worked
worked 60029837
""", is_long=True),
    Row("a word that only the boot uses, and two that it doesn't", LOADS, b"", "look --limit 8000000", """
> goto 8000000
> look registers
state stopped break 0x0001001c
x2 0x7ffffff0 0x00000000
x8 0x00010010 0x00000000
x10 0x0000002a 0x00000000
> worked
worked 8000000
> patch 0x10024 0x63
> look registers
state stopped break 0x0001001c
x2 0x7ffffff0 0x00000000
x8 0x00010010 0x00000000
x10 0x00000064 0x00000000
> worked
worked 10001408
> patch 0x10018 0x00250513
> look registers
state stopped break 0x0001001c
x2 0x7ffffff0 0x00000000
x8 0x00010010 0x00000000
x10 0x00000065 0x00000000
> worked
worked 12002816
> patch 0x10000 0x001e82b7
> look registers
state stopped break 0x0001001c
x2 0x7ffffff0 0x00000000
x8 0x00010010 0x00000000
x10 0x00000065 0x00000000
> worked
worked 20002816
> patch 0x10024 5
> look registers
state stopped break 0x0001001c
x2 0x7ffffff0 0x00000000
x8 0x00010010 0x00000000
x10 0x00000007 0x00000000
> worked
worked 24003072
"""),
    Row("alterations after the boot", ADDS, b"", "look --limit 8000000", """
> goto 6000020
> look registers
state stopped break 0x00010028
x2 0x7ffffff0 0x00000000
x10 0x00000001 0x00000000
x11 0x00000002 0x00000000
x12 0x00000003 0x00000000
x13 0x00000003 0x00000000
> set 6000004 x11 40
> look registers
state stopped break 0x00010028
x2 0x7ffffff0 0x00000000
x10 0x00000001 0x00000000
x11 0x00000028 0x00000000
x12 0x00000029 0x00000000
x13 0x00000029 0x00000000
> flip 6000005 x12 0x100
> look registers
state stopped break 0x00010028
x2 0x7ffffff0 0x00000000
x10 0x00000001 0x00000000
x11 0x00000028 0x00000000
x12 0x00000129 0x00000000
x13 0x00000129 0x00000000
> skip 6000002
> look registers
state stopped break 0x00010028
x2 0x7ffffff0 0x00000000
x11 0x00000028 0x00000000
x12 0x00000102 0x00000000
x13 0x00000002 0x00000000
> unmark 1
> look registers
state stopped break 0x00010028
x2 0x7ffffff0 0x00000000
x11 0x00000028 0x00000000
x12 0x00000002 0x00000000
x13 0x00000002 0x00000000
> mark 6000006 0x7fffffec 4 undefined
> report
step 6000020
state stopped break 0x00010028
input 0 of 0
output 0
error 1: Invalid write of size 4
   at 0x0001001c: ???
 Address 0x7fffffec is in the stack region
error 1: Invalid read of size 4
   at 0x00010020: ???
 Address 0x7fffffec is in the stack region
2 errors from 2 contexts
> unmark 0
> unmark 0
> report
step 6000020
state stopped break 0x00010028
input 0 of 0
output 0
error 1: Invalid write of size 4
   at 0x0001001c: ???
 Address 0x7fffffec is in the stack region
error 1: Conditional jump or move depends on uninitialised value(s)
   at 0x00010024: ???
2 errors from 2 contexts
> worked
worked 6008588
"""),
    Row("searches over the whole run", STORES, b"", "look --limit 8000000", """
> goto 7000010
> look last write 0x00020000 4 0
step 2
> look last write 0x10000 256 0
step 7000005
> look last run 0x1000c 8 0
step 4
> look last run 0x10000 4 0
step 0
> look next error 0 0xffffffff 8000000
none
> look next read 0x00020000 1 8000000
none
> goto 4
> look next write 0x10000 256 8000000
step 7000005
> look next read 0x00020000 1 8000000
step 7000006
> look next error 0 0xffffffff 8000000
step 7000005
> look last shadow 0x20000 4 0
none
> look calls 0 8000000
end
> worked
worked 7010000
"""),
    Row("tries after a boot", COMPARES, b"a", "tries --limit 8000000", """
> goto 6000040
> report
step 6000040
state exited 1
input 1 of 1
output 0
0 errors from 0 contexts
> try 62
outcome 0
exited 98
tried 0 new 16 again 2
> try 61
outcome 1
exited 1
tried 1 new 2 again 0
> differs 62
6000010 0x00010030 0x00000061 0x00000061 0x00000062 0x00000061
end
> tries 0..1 edges
try 0 00
outcome 2
exited 0
tried 2 new 0 again 0
try 0 60
outcome 3
exited 96
tried 3 new 0 again 0
try 0 7f
outcome 4
exited 127
tried 4 new 0 again 0
try 0 80
outcome 5
exited 128
tried 5 new 0 again 0
try 0 ff
outcome 6
exited 255
tried 6 new 0 again 0
end
> try
outcome 7
exited 0
Conditional jump or move depends on uninitialised value(s)
   at 0x00010030: ???
tried 7 new 0 again 0
> take
> report
step 6000040
state exited 0
input 0 of 0
output 0
error 1: Conditional jump or move depends on uninitialised value(s)
   at 0x00010030: ???
1 errors from 1 contexts
"""),
]

CLEAN = ("clean up to step 6000007: nothing that uninitialised, freed or unmapped memory holds has any influence on the run up to there; "
         "the run goes on\n")
USE = ("not clean: first use at step 6000007: Conditional jump or move depends on uninitialised value(s) at 0x00010024: ???\n")
NO_LIMIT = "error: invalid value '{}' for '--{} <N>': {} is not in {}..=2147483647\n"
# Other commands, of which a step that is named may be as great: label, program, arguments, status, and what is printed. In the table of a
# sweep {size} and {digest} are those of the program's file.
COMMANDS = [
    ("a verdict on a boot", USES, "certify --step 6000007", 0, CLEAN),
    ("a verdict on a use after it", USES, "certify --step 6000008", 5, USE),
    ("a verdict far after its end", USES, "certify --step 30000000", 5, USE),
    ("a verdict at the greatest step", USES, "certify --step 2147483647", 5, USE),
    ("faults after a boot", SKIPS, "sweep --step 6000040 --at 6000000..6000009 --faults skip", 0, """sweep 2
program {size} {digest}
input 0 e3b0c44298fc1c149afbf4c8996fb92427ae41e4649b934ca495991b7852b855
supp 0 e3b0c44298fc1c149afbf4c8996fb92427ae41e4649b934ca495991b7852b855
steps 6000000..6000009 skip
step 6000040
output no
part 1/1
outcome 0
exited 12
unedited 0
skip 6000000 0
skip 6000001 0
outcome 1
exited 0
Invalid read of size 4
   at 0x00010020: ???
skip 6000002 1
skip 6000003 1
skip 6000004 1
outcome 2
exited 12
Invalid read of size 4
   at 0x00010020: ???
skip 6000005 2
outcome 3
exited 3
skip 6000006 3
outcome 4
stopped jump
Jump to the invalid address stated on the next line
skip 6000007 4
skip 6000008 4
tally 0 2
tally 1 3
tally 2 1
tally 3 1
tally 4 2
end 9 5 324
"""),
]
# Command lines that are rejected: arguments, and the line on standard error.
REJECTED = [
    ("look --limit 0", NO_LIMIT.format(0, "limit", 0, 1)),
    ("look --limit 2147483648", NO_LIMIT.format(2147483648, "limit", 2147483648, 1)),
    ("tries --limit 0", NO_LIMIT.format(0, "limit", 0, 1)),
    ("tries --limit 2147483648", NO_LIMIT.format(2147483648, "limit", 2147483648, 1)),
    ("certify --step 2147483648", NO_LIMIT.format(2147483648, "step", 2147483648, 0)),
    ("sweep --bytes 0 --step 2147483648", NO_LIMIT.format(2147483648, "step", 2147483648, 0)),
    ("run --step 4194305", NO_LIMIT.format(4194305, "step", 4194305, 0).replace("2147483647", "4194304")),
]
