"""The rows of tests/tools/test-tools: command lines of the launcher, with what each ends with and tells."""
from dataclasses import dataclass, field
from typing import Dict, List, Optional

from guest_files import ENTRY, elf
from replaycheck.guest.assembly import assemble

FORMATS = ("json", "sarif", "valgrind-xml", "junit", "gcc", "github")
EXPECTED = (4, 17, 18)  # the cases of kinds.elf whose outputs stand in tests/golden/firmware
ADDR2LINE = ["riscv64-unknown-elf-addr2line"]
BINUTILS = ["riscv64-unknown-elf-as", "riscv64-unknown-elf-objdump"]
PACKET = ["packet.elf", "--input", "packet.input"]
KINDS = ["kinds.elf", "--input", "kinds.input"]
# Jumps to a multiple of 2, where an EBREAK begins: it is misaligned for rv32im.
HALF = [0x0060006F, 0x00730000, 0x00000010]
SHORT = ["half.elf", "--isa=rv32imc"]
# Behind an instruction of 16 bits, one is stored by LR and SC, and six more by an AMO: it exits with 7.
COUNTS = b"\1\0" + b"".join(word.to_bytes(4, "little") for word in assemble(
    "addi sp, sp, -16; sw x0, 0(sp); again: lr.w a0, (sp); addi a0, a0, 1; sc.w a1, a0, (sp); bne a1, x0, again; li t0, 6; "
    "amoadd.w.aqrl a2, t0, (sp); lw a0, 0(sp); li a7, 93; ecall"))
COUNTED = 0x7FFFFFE0  # where it counts
ATOMIC = ["counts.elf", "--isa=rv32imac"]
# It keeps 5 in a control register, sets a bit of it, and exits with what is there: 7.
KEPT = assemble("csrrwi zero, mscratch, 5; csrrsi zero, mscratch, 2; csrr a0, mscratch; li a7, 93; ecall")
CONTROLS = ["controls.elf", "--isa=rv32imc"]
ODD = assemble("addi t0, sp, 2; amoadd.w a0, a0, (t0); nop")


# Where its code is the heap is usually, and its stack is inside of its segment. It branches on a word of a frame, reads behind a block, and
# below the stack pointer.
PLACED_AT, PLACED_MEMORY = 0x40000000, 0x30000
PLACED = assemble("addi sp, sp, -16; lw t0, 0(sp); beq t0, zero, next; next: li a0, 8; li a7, 2001; ecall; lw t1, 8(a0); lw t2, -4(sp); "
                  "li a0, 7; li a7, 93; ecall")
REGIONS = ["--heap-region=0x90000000", "--stack-region=0x40010000..0x40020000"]
MOVED = ["placed.elf", *REGIONS]
PLACED_ERRORS = """error 1: Conditional jump or move depends on uninitialised value(s)
   at 0x40000008: main
error 1: Invalid read of size 4
   at 0x40000018: main
 Address 0x90000018 is 0 bytes after a block of size 8 alloc'd
   at 0x40000014: main
error 1: Invalid read of size 4
   at 0x4000001c: main
 Address 0x4001ffdc is in the stack region
"""


def placed_file():
    """The file of PLACED."""
    return elf(PLACED, PLACED_MEMORY, [("main", PLACED_AT, 4 * len(PLACED))], base=PLACED_AT)


def atomic_file():
    """The file of COUNTS."""
    return elf([], symbols=[("main", ENTRY, len(COUNTS))], data=COUNTS)


IN_REGION = ("replaycheck: image refused 29: two segments overlap, or one meets the heap or the stack region: `replaycheck adopt` names "
             "options that put these elsewhere\n")
NO_HEAP = "*--heap-region: '0xe0000000' is not a multiple of 0x10000000 from 0x10000000 to 0xd0000000\n*"
NO_STACK = "*--stack-region: '0x1000..0x2000' is not A..B, multiples of 4096 at least 65536 apart\n*"
NO_SET = "*--isa: invalid choice: 'rv32gc' (choose from 'rv32im', 'rv32imc', 'rv32imac')*"
SUPPRESSED = ["run", "undefined-branches.elf", "--supp=undefined-branches.supp"]
# Tools that wait for a child, and the variables that name the child.
SLOW = [
    ("talk", ["talk", "three-words.elf", "asks"], ["REPLAYCHECK"]),
    ("when", ["when", "three-words.elf", "exited"], ["REPLAYCHECK"]),
    ("compare", ["compare", "three-words.elf", "input 0 1"], ["REPLAYCHECK"]),
    ("run", ["run", "three-words.elf", "--error-exitcode=1"], ["REPLAYCHECK"]),
    ("origin", ["origin", "three-words.elf"], ["REPLAYCHECK"]),
    ("gdb", ["gdb", "three-words.elf"], ["REPLAYCHECK"]),
    ("word", ["word", "nop"], ["AS", "LD", "OBJDUMP"]),
    ("coverage", ["coverage", "packet.elf"], ["REPLAYCHECK"]),
    ("coverage asks for lines", ["coverage", "packet.elf"], ["ADDR2LINE"]),
]


# A case of kinds.elf with a leak or a stop, the kinds that count, and the status.
LEAKS = [
    ("a definite leak", 18, "definite,possible", 7), ("a definite leak that doesn't count", 18, "possible", 0),
    ("an indirect leak", 18, "indirect", 7), ("no leak counts", 18, "none", 0), ("a possible leak", 19, "possible", 7),
    ("reachable blocks", 20, "all", 7), ("reachable blocks that don't count", 20, "definite,possible", 0),
    ("a stop", 21, "none", 7),
]


@dataclass
class Row:
    """A command line of the launcher, its status, its output, and what standard error is. `*TEXT*TEXT*` has these texts
    in turn; no `out` is any output."""

    label: str
    words: List[str]
    status: int = 0
    out: Optional[str] = ""
    err: str = ""
    given: bytes = b""
    needs: List[str] = field(default_factory=list)
    environment: Dict[str, str] = field(default_factory=dict)


TALKED = """# A remark, and an empty line

> goto 3
ok
> report
step 3
state exited 0
input 0 of 0
output 0
definitely lost: 0 bytes in 0 blocks
indirectly lost: 0 bytes in 0 blocks
possibly lost: 0 bytes in 0 blocks
still reachable: 0 bytes in 0 blocks
suppressed: 0 bytes in 0 blocks
ERROR SUMMARY: 0 errors from 0 contexts (suppressed: 0 from 0)
> worked
worked 3
"""
FREED = """{
   Invalid read of size 4
   Memcheck:Addr4
   fun:first_item
   fun:total
   fun:main
}
"""
NO_STEP = "refused 5: a step above 4194304, or above N with --limit N"
NO_LIMIT = "*--limit: '{}' is not a number from 1 to 2147483647\nusage: *"
# A program that boots for 6,000,002 steps and branches on what its frame has in step 6,000,007; how far it is looked at.
FAR, FAR_STEP = "far.elf", 6000020
FAR_LIMIT = [f"--limit={FAR_STEP}"]
NO_LINE = "refused 2: no such line, or a field that is missing, too many, empty or of the wrong form"
NO_BYTE = "refused 3: no such byte of the input"
HELD = "   at 0x00010044: total (packet.s:29)\n"
CODED = "+ Invalid read of size 1 at 0x00010044: total (packet.s:29), by main\n"


def talk_rows():
    yield Row("talk: a script", ["talk", "three-words.elf", "script"], 0, TALKED)
    yield Row("talk: from standard input", ["talk", "three-words.elf", "-"], 1, f"> hello\n{NO_LINE}\n> goto 1\nok\n",
              given=b"hello\ngoto 1\n")
    yield Row("talk: for rv32imc", ["talk", *SHORT, "-"], 0, "> look last run 0x10006 4 0\nnone\n> goto 9\nok\n"
              "> look last run 0x10006 4 0\nstep 1\n", given=b"look last run 0x10006 4 0\ngoto 9\nlook last run 0x10006 4 0\n")
    yield Row("talk: for rv32imac", ["talk", *ATOMIC, "-"], 0, f"> goto 9\nok\n> look last read 0x{COUNTED:x} 4 0\nstep 8\n"
              f"> look next write 0x{COUNTED:x} 4 12\nnone\n", given=f"goto 9\nlook last read 0x{COUNTED:x} 4 0\n"
              f"look next write 0x{COUNTED:x} 4 12\n".encode())
    yield Row("talk: another instruction set", ["talk", "three-words.elf", "-", "--isa=rv32gc"], 2, "", NO_SET)
    yield Row("talk: with regions", ["talk", *MOVED, "-"], 0, "> goto 9\nok\n> look last run 0x40000008 4 0\nstep 2\n",
              given=b"goto 9\nlook last run 0x40000008 4 0\n")
    yield Row("talk: a heap region that can't be", ["talk", "three-words.elf", "-", "--heap-region=0xe0000000"], 2, "", NO_HEAP)
    yield Row("talk: a line with a return", ["talk", "three-words.elf", "-"], 0, "> goto 1\nok\n", given=b"goto 1\r\n")
    yield Row("talk: an input", ["talk", "packet.elf", "--input=packet.input", "--", "-"], 0, "> input 7 1\nok\n",
              given=b"input 7 1")
    yield Row("talk: bytes that are no UTF-8", ["talk", "three-words.elf", "-"], 1, f"> \udcff\n{NO_LINE}\n",
              given=b"\xff\n")
    yield Row("talk: a name in two lines", ["talk", "a name\nin two lines.elf", "-"], 0, "> goto 1\nok\n",
              given=b"goto 1\n")
    yield Row("talk: a name that begins as options do", ["talk", "--input=packet.input", "--", "-p.elf", "-"], 0,
              "> goto 1\nok\n", given=b"goto 1\n")
    yield Row("talk: such a name without --", ["talk", "-p.elf", "-"], 2, "", "*the following arguments are required*")
    yield Row("talk: a refused file", ["talk", "script", "-"], 2, "", "replaycheck: image refused 20: no ELF file\n",
              given=b"goto 1\n")
    yield Row("talk: the last step", ["talk", FAR, "-"], 1, f"> goto 4194304\nok\n> goto 4194305\n{NO_STEP}\n",
              given=b"goto 4194304\ngoto 4194305\n")
    yield Row("talk: with a limit", ["talk", FAR, *FAR_LIMIT, "-"], 1,
              f"> goto {FAR_STEP}\nok\n> look last error 0 0xffffffff 0\nstep 6000007\n> goto {FAR_STEP + 1}\n{NO_STEP}\n",
              given=f"goto {FAR_STEP}\nlook last error 0 0xffffffff 0\ngoto {FAR_STEP + 1}\n".encode())
    yield Row("talk: no limit", ["talk", FAR, "--limit=0", "-"], 2, "", NO_LIMIT.format(0))
    yield Row("talk: no script", ["talk", "three-words.elf", "missing"], 2, "",
              "replaycheck talk: missing: No such file or directory\n")
    yield Row("talk: an option twice", ["talk", *PACKET, "--input=a", "-"], 2, "", "*--input is given twice*")
    yield Row("talk: no program", ["talk", "three-words.elf", "script"], 2, None, "*cannot run ./missing*",
              environment={"REPLAYCHECK": "./missing"})


def when_rows():
    when = ["when", "three-words.elf"]
    yield Row("when: after an edit", ["when", *PACKET, "--line", "input 0 8", "Invalid read"], 0, "58\n")
    yield Row("when: not in the unedited run", ["when", *PACKET, "Invalid read"], 1)
    yield Row("when: a suppressed error",
              ["when", "undefined-branches.elf", "--supp", "undefined-branches.supp", "error 1"], 1)
    yield Row("when: the last step", [*when, "--last", "3", "state exited"], 0, "3\n")
    yield Row("when: a hexadecimal step", [*when, "--last=0x3", "state exited"], 0, "3\n")
    yield Row("when: from the start", [*when, "--last", "2", "state running"], 0, "0\n")
    yield Row("when: before the last step", [*when, "--last", "2", "state exited"], 1, "",
              "replaycheck when: not by step 2; the run goes on\n")
    yield Row("when: the run rests", [*when, "--last=99", "--line=patch 0x10000 0x6f", "state exited"], 1)
    yield Row("when: the run rests at a half", ["when", *SHORT, "--last=99", "--line=patch16 0x10006 0xa001", "state exited"], 1)
    yield Row("when: the run goes on in a loop", [*when, "--last=99", "--line=patch 0x10004 0xffdff06f", "state exited"], 1, "",
              "replaycheck when: not by step 99; the run goes on\n")
    yield Row("when: a refused line", ["when", "packet.elf", "--line", "input 0 8", "x"], 2, "",
              f"replaycheck when: input 0 8: {NO_BYTE}\n")
    yield Row("when: two lines in one word", ["when", *PACKET, "--line", "input 0 8\nreport", "Invalid"], 2, "",
              "*two lines in one argument*")
    yield Row("when: a text of two lines", [*when, "state\nexited"], 2, "", "*two lines in one argument*")
    yield Row("when: no edit", ["when", *PACKET, "--line", "goto 8", "Invalid"], 2, "", "*not an edit: 'goto 8'*")
    yield Row("when: for rv32imc", ["when", *SHORT, "stopped break 0x00010006"], 0, "2\n")
    yield Row("when: for rv32im", ["when", "half.elf", "--isa", "rv32im", "stopped break"], 1)
    yield Row("when: with control registers", ["when", *CONTROLS, "state exited 7"], 0, "5\n")
    yield Row("when: for rv32imac", ["when", *ATOMIC, "state exited 7"], 0, "12\n")
    yield Row("when: atomic instructions for rv32imc", ["when", "counts.elf", "--isa=rv32imc", "stopped illegal 0x0001000a"], 0, "4\n")
    yield Row("when: with regions", ["when", *MOVED, "Address 0x90000018"], 0, "7\n")
    yield Row("when: without them", ["when", "placed.elf", "x"], 2, "", IN_REGION)
    yield Row("when: a stack region that can't be", [*when, "--stack-region", "0x1000..0x2000", "x"], 2, "", NO_STACK)
    yield Row("when: a heap region twice", ["when", *MOVED, "--heap-region=0x90000000", "x"], 2, "", "*--heap-region is given twice*")
    yield Row("when: regions that overlap", [*when, "--heap-region=0x30000000", "--stack-region=0x40010000..0x40020000", "x"], 2, "",
              "*heap region and stack region overlap: --heap-region 0x30000000 --stack-region 0x40010000..0x40020000\n*")
    yield Row("when: another instruction set", [*when, "--isa=rv32gc", "x"], 2, "", NO_SET)
    yield Row("when: an instruction set twice", ["when", *SHORT, *SHORT[1:], "x"], 2, "", "*--isa is given twice*")
    yield Row("when: no instruction set", [*when, "x", "--isa"], 2, "", "*--isa: expected one argument*")
    yield Row("when: a step that is too great", [*when, "--last", "4194305", "x"], 2, "",
              "*not a number from 0 to 4194304*")
    yield Row("when: with a limit", ["when", FAR, f"--last={FAR_STEP}", *FAR_LIMIT, "error 1: Conditional"], 0, "6000008\n")
    yield Row("when: with a limit, and a line beyond the usual one",
              ["when", FAR, "--line", "skip 6000007", *FAR_LIMIT, f"--last={FAR_STEP}", "state stopped break"], 0, "6000008\n")
    yield Row("when: a limit doesn't choose the step", ["when", FAR, *FAR_LIMIT, "error 1"], 1, "",
              "replaycheck when: not by step 1048576; the run goes on\n")
    yield Row("when: a limit below the usual step", ["when", FAR, "--limit=9", "error 1"], 1, "",
              "replaycheck when: not by step 9; the run goes on\n")
    yield Row("when: a step above the limit", ["when", FAR, "--limit", "9", "--last=0xa", "x"], 2, "",
              "*--last: '0xa' is not a number from 0 to 9\nusage: *")
    yield Row("when: a step above a limit that comes after it", ["when", FAR, "--last=10", "--limit=0x9", "x"], 2, "",
              "*--last: '10' is not a number from 0 to 9\nusage: *")
    yield Row("when: a line above the limit", ["when", FAR, "--limit=9", "--line=skip 10", "x"], 2, "", f"*skip 10: {NO_STEP}*")
    for limit in (0, 2147483648, "x"):
        yield Row(f"when: the limit {limit}", ["when", FAR, f"--limit={limit}", "x"], 2, "", NO_LIMIT.format(limit))
    yield Row("when: a limit twice", ["when", FAR, *FAR_LIMIT, *FAR_LIMIT, "x"], 2, "", "*--limit is given twice*")
    yield Row("when: a refused file", ["when", "script", "x"], 2, "", "replaycheck: image refused 20: no ELF file\n")


def compare_rows():
    compare = ["compare", *PACKET]
    yield Row("compare: the same", [*compare, "input 7 1"], 0)
    yield Row("compare: another report", [*compare, "input 0 8"], 1, "*--- at step 1048576\n+++ after input 0 8\n@@ *")
    yield Row("compare: an error more", [*compare, "input 0 8"], 1, "*+error 1: Invalid read of size 1*")
    yield Row("compare: an error less", ["compare", "use-after-free.elf", "supp add Addr4 ..."], 1,
              "*-error 1: Invalid read of size 4*")
    yield Row("compare: lines that take one another back", [*compare, "input 0 8", "input 0 3"], 0)
    yield Row("compare: a suppression", [*compare, "--supp", "free.supp", "option redzone 32"], 0)
    yield Row("compare: with a limit", ["compare", FAR, f"--step={FAR_STEP}", *FAR_LIMIT, "mark 6000003 0x7fffffe4 4 defined"], 1,
              f"*--- at step {FAR_STEP}\n*-error 1: Conditional jump*+ERROR SUMMARY: 0 errors*")
    yield Row("compare: no limit", ["compare", FAR, "--limit=0", "skip 0"], 2, "", NO_LIMIT.format(0))
    yield Row("compare: for rv32imc", ["compare", *SHORT, "patch 0x10004 0"], 1,
              "*-state stopped break 0x00010006\n+state stopped illegal 0x00010006\n*")
    yield Row("compare: with control registers", ["compare", *CONTROLS, "patch 0x10004 0x3401f073"], 1,
              "*-state exited 7\n+state exited 4\n*")
    yield Row("compare: for rv32imac", ["compare", *ATOMIC, "patch 0x1001e 0x0e51262f"], 1, "*-state exited 7\n+state exited 6\n*")
    yield Row("compare: with regions", ["compare", *MOVED, "patch 0x40000004 0x13"], 1,
              "*-error 1: Conditional jump or move depends on uninitialised value(s)\n*")
    yield Row("compare: a patch in the stack", ["compare", *MOVED, "patch 0x40010000 0x13"], 2, "", "*refused 4: *")
    yield Row("compare: another instruction set", [*compare, "--isa", "rv32gc", "input 0 8"], 2, "", NO_SET)
    yield Row("compare: a step that is too great", [*compare, "--step", "5000000", "input 0 8"], 2, "",
              "*not a number from 0*")
    yield Row("compare: a missing program", ["compare", "missing", "input 0 8"], 2, "",
              "replaycheck: cannot read missing: No such file or directory\n")
    yield Row("compare: options behind lines", [*compare, "input 0 8", "--step", "0x3c"], 1, "*--- at step 60\n*")
    yield Row("compare: a script after", [*compare, "--after", "edits"], 1, "*+++ after input 0 8\n*")
    yield Row("compare: a script before, and more after",
              [*compare, "--before", "edits", "--after", "edits", "option callers 1"], 1,
              "*--- after input 0 8\n+++ after input 0 8; option callers 1\n*")
    yield Row("compare: scripts on both sides that differ", [*compare, "--before", "edits", "input 7 1"], 1,
              "*--- after input 0 8\n+++ after input 7 1\n*-error 1: Invalid read of size 1*")
    yield Row("compare: the same script on both sides", [*compare, "--before", "edits", "--after", "edits"], 0)
    yield Row("compare: lines of both sides are made once", [*compare, "--before", "appends", "--after", "appends"], 0)
    yield Row("compare: no line", compare, 2, "", "*no line, no --before and no --after*")
    yield Row("compare: a refused line", [*compare, "option color 1"], 2, "",
              "replaycheck compare: option color 1: refused 9: no such option, or its value is out of range\n")
    yield Row("compare: a half for rv32im", [*compare, "patch16 0x10000 1"], 2, "",
              "*compare: patch16 0x10000 1: refused 2: no such line, or a field that is missing*")
    yield Row("compare: two lines in one word", [*compare, "input 0 8\ninput 0 3"], 2, "", "*two lines in one argument*")
    yield Row("compare: no edit", [*compare, "report"], 2, "", "*not an edit: 'report'*")
    yield Row("compare: a script with another line", [*compare, "--after", "not edits"], 2, "",
              "*not edits: not an edit: 'goto 8'*")
    yield Row("compare: a missing script", [*compare, "--before", "none"], 2, "",
              "replaycheck compare: none: No such file or directory\n")
    yield Row("compare: no diff", [*compare, "input 0 8"], 2, "", "*cannot run diff*diffutils*",
              environment={"PATH": "few"})


def suppress_rows():
    yield Row("suppress: blocks", ["suppress", "error.report"], 0, FREED)
    yield Row("suppress: a report twice", ["suppress", "error.report", "error.report"], 0, FREED)
    yield Row("suppress: no report", ["suppress"], 2, "", "replaycheck suppress: no report\n", given=b"ok\n")
    yield Row("suppress: no whole report", ["suppress"], 2, "", "*line 2 must be `state ..`, and is the end*",
              given=b"step 1")
    yield Row("suppress: a part of a report", ["suppress"], 2, "", "*outside a report*",
              given=b"error 1: Invalid read of size 4\n")
    yield Row("suppress: a missing report", ["suppress", "missing"], 2, "",
              "replaycheck suppress: missing: No such file or directory\n")


def word_rows():
    for word, instruction in (("0x00a50533", "add a0,a0,a0"), ("0xfe010113", "addi sp,sp,-32"),
                              ("0x04f5f663", "bgeu a1,a5,.+76"),
                              ("0xff1ff06f", "j .-16"), ("0x00812e03", "lw t3,8(sp)"), ("0x02d7f7b3", "remu a5,a5,a3"),
                              ("0x00000073", "ecall")):
        yield Row(f"word: {instruction}", ["word", instruction], 0, f"{word}\n", needs=BINUTILS)
    # The word of station.elf's call of malloc at this address.
    at, symbols = ["--at", "0x101e8"], ["--symbols", "station.elf"]
    for instruction, more, word in (("jal 0x10918", at, "0x730000ef"), ("jal malloc", at + symbols, "0x730000ef"),
                                    ("lui a0,%hi(0x20800)", [], "0x00021537"), ("jal .+20", [], "0x014000ef"),
                                    ("again: j again", [], "0x0000006f"), (".word 0x5a", [], "0x0000005a")):
        yield Row(f"word: {' '.join([instruction, *more])}", ["word", instruction, *more], 0, f"{word}\n", needs=BINUTILS)
    for instruction, more, said in (("jal 0x10918", [], "the word depends on the instruction's address: --at"),
                                    ("j main", at, "unknown name: main; --symbols FILE gives"),
                                    ("lui a0,%hi(nothing)", at + symbols, "nothing; it is no global symbol of station.elf"),
                                    ("jal 0x30000000", at, "the target is too far"),
                                    (".include \"/dev/zero\"", [], ".include: a directive"),
                                    ("nop;.incbin \"/dev/zero\"", [], ".incbin: a directive")):
        yield Row(f"word: refused, {' '.join([instruction, *more])}", ["word", instruction, *more], 1, "", f"*{said}*", needs=BINUTILS)
    for more, said in ((["--at", "3"], "--at 0x3: not a multiple of 4"), (["--symbols", "missing"], "missing: no such file")):
        yield Row(f"word: {' '.join(more)}", ["word", "nop", *more], 2, "", f"*{said}*", needs=BINUTILS)
    yield Row("word: two words", ["word", "li a0,70000"], 1, "", "*2 words, not one*", needs=BINUTILS)
    yield Row("word: no word", ["word", ""], 1, "", "*0 words, not one*", needs=BINUTILS)
    yield Row("word: no instruction", ["word", "hello a0"], 1, "", "*Error*", needs=BINUTILS)
    yield Row("word: not of RV32IM", ["word", "c.nop"], 1, "", "*Error*", needs=BINUTILS)
    short = ["word", "--isa=rv32imc"]
    for word, instruction in (("0x00150513", "addi a0,a0,1"), ("0x00010001", "c.nop; c.nop"), ("0x45050001", "c.nop;c.li a0,1"),
                              ("0xa0010001", "C.NOP; c.j ."), ("0x0001", "c.nop"), ("0x4505", "c.li a0,1"), ("0x0001", " C.NOP")):
        yield Row(f"word: of rv32imc, {instruction}", [*short, instruction], 0, f"{word}\n", needs=BINUTILS)
    for instruction, at, word in (("c.j .+16", "0x10002", "0xa801"), ("c.beqz a0,.-6", "0x10006", "0xdd6d"),
                                  ("jal 0x10918", "0x101ea", "0x72e000ef")):
        yield Row(f"word: of rv32imc, {instruction}", [*short, instruction, "--at", at], 0, f"{word}\n", needs=BINUTILS)
    yield Row("word: of rv32imc, an odd address", [*short, "c.nop", "--at=0x10001"], 2, "", "*--at 0x10001: not a multiple of 2*")
    yield Row("word: of rv32imc, a half to an address", [*short, "c.j 0x10012", "--at=0x10002"], 1, "",
              "replaycheck word: the assembler makes 32 bits of it: a distance, such as .+16, keeps 16\n", needs=BINUTILS)
    for instruction in ("c.nop; c.nop; c.nop", "c.nop; ecall"):
        yield Row(f"word: of rv32imc, refused, {instruction}", [*short, instruction], 1, "",
                  "replaycheck word: more than one word: that is one instruction, or two of 16 bits, such as 'c.nop; c.nop'\n",
                  needs=BINUTILS)
    yield Row("word: of rv32imc, two words", [*short, "li a0,70000"], 1, "", "*2 words, not one*", needs=BINUTILS)
    yield Row("word: not of rv32imc", [*short, "c.flw fa0,0(a0)"], 1, "", "*Error*", needs=BINUTILS)
    for word, instruction in (("0x00b6252f", "amoadd.w a0,a1,(a2)"), ("0x0eb6252f", "amoswap.w.aqrl a0,a1,(a2)"),
                              ("0x1406252f", "lr.w.aq a0,(a2)"), ("0x1ab6252f", "sc.w.rl a0,a1,(a2)"), ("0x4505", "c.li a0,1")):
        yield Row(f"word: of rv32imac, {instruction}", ["word", "--isa=rv32imac", instruction], 0, f"{word}\n", needs=BINUTILS)
    for word, instruction in (("0xf1402573", "csrr a0,mhartid"), ("0x34029073", "csrw mscratch,t0"), ("0x3042d573", "csrrwi a0,mie,5"),
                              ("0x7c002573", "csrr a0,0x7c0"), ("0x0000100f", "fence.i"), ("0x10500073", "wfi")):
        yield Row(f"word: of rv32imc, {instruction}", [*short, instruction], 0, f"{word}\n", needs=BINUTILS)
    yield Row("word: of rv32imac, a control register", ["word", "--isa=rv32imac", "csrw mtvec,a0"], 0, "0x30551073\n", needs=BINUTILS)
    yield Row("word: a control register, not of rv32im", ["word", "csrr a0,mhartid"], 1, "", "*Error*", needs=BINUTILS)
    yield Row("word: not of rv32imac", ["word", "--isa=rv32imac", "amoadd.d a0,a1,(a2)"], 1, "", "*Error*", needs=BINUTILS)
    yield Row("word: atomic, not of rv32imc", [*short, "amoadd.w a0,a1,(a2)"], 1, "", "*Error*", needs=BINUTILS)
    yield Row("word: another instruction set", ["word", "nop", "--isa=rv32gc"], 2, "", NO_SET)
    yield Row("word: two lines", ["word", "nop\nnop"], 2, "", "*two lines in one argument*", needs=BINUTILS)
    yield Row("word: no assembler", ["word", "nop"], 2, "", "*cannot run missing-as*binutils*",
              environment={"AS": "missing-as"})
    yield Row("word: no linker", ["word", "nop"], 2, "", "*cannot run no-ld*", needs=BINUTILS, environment={"LD": "no-ld"})
    yield Row("word: no disassembler", ["word", "nop"], 2, "", "*cannot run no-objdump*", needs=BINUTILS,
              environment={"OBJDUMP": "no-objdump"})


def lines_rows():
    report = b"error 1: at 0x00010044: no frame\n   at 0x00010044: total\n   by 0x00010028: main\n 0x\xff"
    placed = f"error 1: at 0x00010044: no frame\n{HELD}   by 0x00010028: main (packet.s:17)\n 0x\udcff"
    yield Row("lines: a report", ["lines", "packet.elf"], 0, placed, given=report, needs=ADDR2LINE)
    for sign in "-", "+", " ", "< ", "> ":
        yield Row(f"lines: a diff, {sign!r}", ["lines", "packet.elf"], 0, sign + HELD,
                  given=sign.encode() + b"   at 0x00010044: total\n",
                  needs=ADDR2LINE)
    inlined = "   at 0x00010160: call_environment (environment.h:23)\n   by 0x00010160: write (system.c:14)\n"
    yield Row("lines: an inlined call", ["lines", "station.elf"], 0, inlined, given=b"   at 0x00010160: write\n",
              needs=ADDR2LINE)
    yield Row("lines: an inlined call in a diff", ["lines", "station.elf"], 0,
              "+   at 0x00010160: write (environment.h:23 in system.c:14)\n", given=b"+   at 0x00010160: write\n",
              needs=ADDR2LINE)
    yield Row("lines: one of several places of a line", ["lines", "station.elf"], 0,
              "   by 0x000102e0: drop (station.c:122)\n",
              given=b"   by 0x000102e0: drop\n", needs=ADDR2LINE)
    yield Row("lines: whole paths", ["lines", "station.elf", "--full-paths"], 0,
              "   by 0x000102e0: drop (../firmware/station.c:122)\n",
              given=b"   by 0x000102e0: drop\n", needs=ADDR2LINE)
    yield Row("lines: paths from below a folder", ["lines", "--strip-prefix=../firmware/", "station.elf"], 0,
              "   by 0x000102e0: drop (station.c:122)\n", given=b"   by 0x000102e0: drop\n", needs=ADDR2LINE)
    yield Row("lines: a summary of a sweep", ["lines", "packet.elf"], 0, CODED, needs=ADDR2LINE,
              given=b"+ Invalid read of size 1 at 0x00010044: total, by main\n")
    yield Row("lines: a table of a sweep", ["lines", "packet.elf"], 0, f"Invalid read of size 1\n{HELD}input 0 8 1\n",
              needs=ADDR2LINE, given=b"Invalid read of size 1\n   at 0x00010044: total\ninput 0 8 1\n")
    yield Row("lines: no frames", ["lines", "packet.elf"], 0, "ok\n", given=b"ok\n", needs=ADDR2LINE)
    bare = b"   at 0x00010000: main\nok\n"
    yield Row("lines: no debug information", ["lines", "two-callers.elf"], 1, bare.decode(), given=bare,
              needs=ADDR2LINE)
    yield Row("lines: no program", ["lines", "script"], 2, bare.decode(), "*addr2line ended*", given=bare,
              needs=ADDR2LINE)
    yield Row("lines: no such file", ["lines", "missing"], 2, bare.decode(),
              "replaycheck lines: missing: no such file\n", given=bare)
    yield Row("lines: no addr2line", ["lines", "packet.elf"], 2, bare.decode(), "*cannot run no-addr2line*binutils*",
              given=bare,
              environment={"ADDR2LINE": "no-addr2line"})
    yield Row("lines: a bad option", ["lines", "--colour", "packet.elf"], 2, "", "*unrecognized arguments: --colour*",
              given=bare)
    yield Row("lines: two ways of paths", ["lines", "packet.elf", "--full-paths", "--strip-prefix=x"], 2, "",
              "*at once*")


def run_rows():
    run = ["run", "undefined-branches.elf"]
    freed = ["run", "use-after-free.elf"]
    yield Row("run: an error", [*freed, "--error-exitcode=7"], 7, None)
    yield Row("run: an error, and no status", [*freed, "--error-exitcode", "0"], 0, None)
    yield Row("run: no error", ["run", "three-words.elf", "--error-exitcode=7"], 0, None)
    yield Row("run: for rv32imc", ["run", *SHORT], 0, "*state stopped break 0x00010006\n*")
    yield Row("run: for rv32imc, as a report", ["run", *SHORT, "--error-exitcode=7"], 7, "*state stopped break 0x00010006\n*")
    yield Row("run: for rv32imc, by a session", ["run", *SHORT, "--redzone-size=8"], 0, "*state stopped break 0x00010006\n*")
    yield Row("run: for rv32imc, as json", ["run", *SHORT, "--format=json"], 0,
              '*"input": null,\n "isa": "rv32imc",\n "step": 4194304*"why": "break"*"clean": true*')
    yield Row("run: for rv32im, as json", ["run", "half.elf", "--isa=rv32im", "--format=json"], 0,
              '*"input": null,\n "step": 4194304*"why": "misaligned"*')
    yield Row("run: with control registers", ["run", *CONTROLS], 0, "*state exited 7\n*")
    yield Row("run: without them", ["run", "controls.elf"], 0, "*state stopped illegal 0x00010000\n*")
    yield Row("run: for rv32imac", ["run", *ATOMIC], 0, "*state exited 7\n*")
    yield Row("run: for rv32imac, as json", ["run", *ATOMIC, "--format=json"], 0, '*"input": null,\n "isa": "rv32imac",\n*"status": 7*')
    yield Row("run: an atomic instruction at no multiple of 4", ["run", "odd.elf", "--isa=rv32imac", "--format=gcc"], 0,
              "*stopped: an atomic instruction at an address that is no multiple of 4*", needs=ADDR2LINE)
    yield Row("run: no atomic instruction for rv32imc", ["run", "counts.elf", "--isa=rv32imc", "--format=gcc"], 0,
              "*stopped: no instruction of RV32IMC*", needs=ADDR2LINE)
    yield Row("run: with regions", ["run", *MOVED], 0, f"*state exited 7\n*{PLACED_ERRORS}*")
    yield Row("run: with regions, as a report", ["run", *MOVED, "--error-exitcode=9"], 9, f"*{PLACED_ERRORS}*")
    yield Row("run: with regions, by a session", ["run", *MOVED, "--num-callers=1"], 0, f"*{PLACED_ERRORS}*")
    yield Row("run: with regions, as json", ["run", *MOVED, "--format=json"], 0,
              '*"input": null,\n "heap_region": "0x90000000",\n "stack_region": "0x40010000..0x40020000",\n "step": 4194304*'
              '"clean": false*"known": "by number"*')
    yield Row("run: with the usual regions, as json", ["run", "half.elf", "--heap-region=0x40000000", "--format=json"], 0,
              '*"input": null,\n "step": 4194304*')
    yield Row("run: without regions", ["run", "placed.elf", "--format=json"], 3, "", IN_REGION)
    yield Row("run: a heap region that can't be", ["run", "half.elf", "--heap-region=0xe0000000", "--format=json"], 2, "", NO_HEAP)
    yield Row("run: another instruction set", ["run", "half.elf", "--isa=rv32gc", "--format=json"], 2, "", NO_SET)
    for label, case, kinds, status in LEAKS:
        yield Row(f"run: {label}", ["run", "kinds.elf", f"--input=case-{case}", f"--errors-for-leak-kinds={kinds}",
                                    "--error-exitcode=7"], status, None)
    yield Row("run: reachable blocks are listed",
              ["run", "kinds.elf", "--input=case-20", "--show-leak-kinds=reachable"], 0,
              "*leak 8 bytes in 1 blocks are still reachable*")
    yield Row("run: errors that are suppressed", [*run, "--suppressions=undefined-branches.supp", "--error-exitcode=7"],
              0,
              "*ERROR SUMMARY: 0 errors from 0 contexts (suppressed: 2 from 2)*")
    yield Row("run: two files of suppressions",
              [*run, "--supp=free.supp", "--suppressions=undefined-branches.supp", "--error-exitcode=7"], 0,
              "*(suppressed: 2 from 2)*")
    yield Row("run: the second file of suppressions is at fault",
              [*run, "--supp=free.supp", "--suppressions", "half.supp"], 3, "",
              "replaycheck: suppressions refused 13 at line 1: a suppression that can't be read\n")
    yield Row("run: shorter traces", [*freed, "--num-callers=1"], 0,
              "*error 1: Invalid read of size 4\n   at 0x00010050: first_item\n Address*")
    yield Row("run: no room for freed blocks", [*freed, "--freelist-vol=0"], 0,
              "*is not stack'd, malloc'd or (recently) free'd*")
    yield Row("run: a step", [*freed, "--redzone-size=0x20", "--step=3"], 0, "*step 3\nstate running*", "*still running at step 3: *")
    yield Row("run: more callers than there are", [*freed, "--num-callers=25"], 2, "", "*not a number from 1 to 24*")
    yield Row("run: no kind of leak", [*freed, "--show-leak-kinds=lost"], 2, "", "*no kind of leak: 'lost'*")
    yield Row("run: no format", [*freed, "--format=yaml"], 2, "", "*invalid choice: 'yaml'*")
    yield Row("run: an option twice", [*freed, "--format=gcc", "--format=gcc"], 2, "", "*--format is given twice*")
    yield Row("run: paths of a text", [*freed, "--full-paths"], 2, "", "*go with a --format that*")
    yield Row("run: an option of Valgrind", [*freed, "--leak-check=full"], 2, "",
              "*--leak-check is no option here: leaks are searched for*")
    yield Row("run: another option of Valgrind", [*freed, "--xml=yes"], 2, "",
              "*--xml is no option here: --format valgrind-xml*")
    yield Row("run: the output", [*freed, "--output=x"], 2, "", "*counts the bytes that were written and doesn't keep them*")
    yield Row("run: an option that nobody has", [*freed, "--depth=3"], 2, "", "*unexpected argument '--depth' found*")
    yield Row("run: no program", ["run", "script", "--error-exitcode=7"], 3, "",
              "replaycheck: image refused 20: no ELF file\n")
    yield Row("run: a missing program", ["run", "missing", "--error-exitcode=7"], 1, "",
              "replaycheck: cannot read missing: No such file or directory\n")
    yield Row("run: a folder for a program", ["run", "few", "--error-exitcode=7"], 1, "",
              "replaycheck: cannot read few: Is a directory\n")
    yield Row("run: a name in two lines", ["run", "a name\nin two lines.elf", "--error-exitcode=7"], 7, None)
    yield Row("run: no addr2line", [*freed, "--format=gcc", "--error-exitcode=7"], 7,
              "*use-after-free.elf: warning: Invalid read of size 4 in first_item [Addr4]\n*0x00010050: first_item\n*",
              "*replaycheck run: no source lines: cannot run no-addr2line: No such file or directory; source lines need*",
              environment={"ADDR2LINE": "no-addr2line"})
    yield Row("run: an addr2line that ends at once", [*freed, "--format=json", "--error-exitcode=7"], 7, '*"place": null*',
              "*replaycheck run: no source lines: addr2line ended*", environment={"ADDR2LINE": "false"})
    yield Row("run: a program that answers no report", [*freed, "--error-exitcode=7"], 2, "",
              "*replaycheck run: echo: what it printed is no report: 'run --step*", environment={"REPLAYCHECK": "echo"})
    yield from running_rows()
    yield from heap_rows()


def running_rows():
    """A program that hasn't ended where its report is: what it does later isn't checked."""
    late = ["run", "late.elf", "--error-exitcode=9"]
    runs_on = "replaycheck run: late.elf: still running at step 3000: what it does after that isn't checked; --step goes up to 4194304\n"
    yield Row("run: still running", [*late, "--step=3000"], 9, "*step 3000\nstate running *", runs_on)
    yield Row("run: still running, and no status", ["run", "late.elf", "--error-exitcode=0", "--step=3000"], 0, None, runs_on)
    yield Row("run: an error after the program's own step", late, 9, "*step 4194304\nstate exited 0\n*error 1: Invalid read of size 4*")
    yield Row("run: still running at the last step of all", ["run", "endless.elf", "--error-exitcode=9"], 9,
              "*step 4194304\nstate running *",
              "replaycheck run: endless.elf: still running at step 4194304: what it does after that isn't checked\n")
    for name, told in (("json", '*"ended": false,*'), ("sarif", '*{"executionSuccessful": false}*"ruleId": "Running"*"level": "error"*'),
                       ("valgrind-xml", "*<state>RUNNING</state>\n  <time>step 3000</time>*"),
                       ("junit", '*tests="1" failures="0" errors="1"*<error type="Running" message="still running at step 3000*'),
                       ("gcc", "*: warning: still running at step 3000*[Running]\n*"),
                       ("github", "*::error *title=still running at step 3000*")):
        yield Row(f"run: still running, as {name}", [*late, "--step=3000", f"--format={name}"], 9, told, runs_on, needs=ADDR2LINE)


def heap_rows():
    """Whether a heap goes unseen is said, and of no file whose heap is known or that has none."""
    stripped = ["run", "stripped.elf", "--input=long-name.input"]
    unseen = "*replaycheck run: stripped.elf: errors of the heap can't be found: the file has no symbols: *"
    blocks = "errors of the heap can't be found in blocks of these (see `replaycheck adopt`, --not-heap): "
    other = f"*replaycheck run: other.elf: {blocks}pvPortMalloc\n*"
    yield Row("run: the error of a file with symbols", ["run", "station.elf", "--input=long-name.input", "--error-exitcode=9"], 9, None)
    yield Row("run: a stripped file", [*stripped, "--error-exitcode=9"], 9, None, unseen)
    yield Row("run: a stripped file, and no heap is needed", [*stripped, "--error-exitcode=9", "--no-require-heap"], 0, None, unseen)
    yield Row("run: a stripped file, without a status for errors", [*stripped, "--error-exitcode=0"], 0, None, unseen)
    yield Row("run: a heap is needed and isn't", [*stripped, "--require-heap", "--no-require-heap"], 2, "",
              "*--require-heap and --no-require-heap at once*")
    yield Row("run: a heap is needed, and no other status is asked for", [*stripped, "--require-heap"], 1, None, unseen)
    yield Row("run: a heap of other names", ["run", "other.elf", "--error-exitcode=9"], 9, None, other)
    yield Row("run: names that aren't a heap's",
              ["run", "other.elf", "--error-exitcode=9", "--not-heap=no", "--not-heap=pvPortMalloc"], 0, None)
    for name, symbol in (("rust.elf", "__rust_alloc"), ("new-rust.elf", "_RNvCseulmdZsCeCG_7___rustc12___rust_alloc")):
        yield Row(f"run: Rust's own heap, {name}", ["run", name, "--error-exitcode=9", "--require-heap"], 9, None,
                  f"*replaycheck run: {name}: {blocks}{symbol}\n*")
    yield Row("run: a label of the heap's name", ["run", "label.elf", "--error-exitcode=9"], 9, None,
              f"*replaycheck run: label.elf: {blocks}malloc\n*")
    for label, words in (("a heap by name", ["station.elf", "--input=station.input"]),
                         ("a heap by number", ["station-by-number.elf", "--input=station.input"]),
                         ("a heap by number, stripped", ["stripped-by-number.elf", "--input=station.input"]),
                         ("a heap by a number in memory, stripped", ["from-table.elf"]), ("no heap", ["two-callers.elf"]),
                         ("symbols and no heap", ["boot.elf"])):
        yield Row(f"run: {label} is no cause for a notice", ["run", *words, "--require-heap"], 0, None)
    yield Row("run: calls by number that aren't executed", ["run", "at-halves.elf", "--step=0", "--require-heap", "--isa=rv32imc"], 1, None,
              "*replaycheck run: at-halves.elf: errors of the heap can't be found: the file has no symbols: *")
    for name, told in (("json", '*"heap": {\n  "known": "no symbols",\n  "functions": []\n }*'),
                       ("sarif", '*{"executionSuccessful": false, "toolExecutionNotifications": [{"level": "error", "message": *'),
                       ("junit", '*tests="1" failures="0" errors="1"*<error type="Heap"*'),
                       ("gcc", "*: warning: errors of the heap *[Heap]\n*"),
                       ("github", "*::error title=The heap goes unseen::stripped.elf: errors of the heap*")):
        yield Row(f"run: a heap is needed, as {name}", [*stripped, "--require-heap", f"--format={name}"], 1, told, unseen, needs=ADDR2LINE)
    yield Row("run: a clean run, as json", ["run", *PACKET, "--format=json"], 0, '*"certify": {\n  "clean": true,\n*')
    yield Row("run: a clean run that goes on, as json", ["run", *PACKET, "--step=9", "--format=json"], 0,
              '*"certify": {\n  "clean": true,\n  "goes_on": true,\n*', "*still running at step 9: *")
    yield Row("run: the first use of a run, as json", ["run", "use-after-free.elf", "--format=json"], 0,
              '*"clean": false,\n  "first_use": {"step": 14, "text": "Invalid read of size 4", "trace": [{"address": "0x00010050"*')
    yield Row("run: a first use that is suppressed, as json", [*SUPPRESSED, "--format=json"], 0,
              '*"clean": false,\n  "first_use": {"step": *"summary": {\n  "errors": 0,*')
    yield Row("run: the heap of a file, as json", ["run", "station.elf", "--input=station.input", "--format=json"], 0,
              '*"known": "by name",\n  "functions": ["calloc", "free", "malloc", "realloc"]*', needs=ADDR2LINE)
    yield Row("run: a stripped file, as sarif", [*stripped, "--format=sarif"], 0,
              '*{"executionSuccessful": true, "toolExecutionNotifications": [{"level": "warning"*', unseen, needs=ADDR2LINE)


def launcher_rows():
    yield Row("a command that isn't there", ["walks"], 2, "", "*replaycheck: no such command, tool or file: walks: `replaycheck --help`*")
    yield Row("a tool that is like it", ["explor"], 2, "", "*replaycheck: no such command, tool or file: explor: did you mean*explore*")
    yield Row("a command that is like it", ["sesion"], 2, "", "*did you mean `replaycheck session`?*")
    yield Row("no command: the tools too", [], 2, "", "*  replaycheck explore *  replaycheck word *")
    yield Row("both helps of run", ["run", "--help"], 0,
              "*Usage: replaycheck* run [OPTIONS] <FILE>*--errors-for-leak-kinds LIST*--require-heap*Exit status with these options:*")
    for words in (["run", "--error-exitcode=1", "--help"], ["run", "-h"], ["help", "run"]):
        yield Row(f"both helps of run, by {' '.join(words)}", words, 0, "*Usage: replaycheck* run *--errors-for-leak-kinds LIST*")
    for words in (["exec", "--help"], ["exec", "-q", "-h"], ["help", "exec"]):
        yield Row(f"both helps of exec, by {' '.join(words)}", words, 0, "*Usage: replaycheck* exec *Of two names of one option*")
    yield Row("help of help", ["help"], 0, "*Usage: replaycheck*  replaycheck word *those for test runners.\n*")
    yield Row("help of a command", ["help", "look"], 0, "*Usage: replaycheck look*")
    yield Row("help of no command", ["help", "walks"], 2, "", "*walks*")
    yield Row("an option that nobody has", ["--walks"], 2, "", "*error: unexpected argument '--walks' found*")
    yield Row("an empty word", [""], 2, "", "*error: unrecognized subcommand ''*")
    yield Row("help of a tool", ["help", "when"], 0, "*usage: replaycheck when FILE*")
    yield Row("a path that isn't there is no tool", ["../bin/ls"], 2, "", "*no such command, tool or file: ../bin/ls: *")
    yield Row("a program by its path", ["./use-after-free.elf"], 0, "*step 1048576\nstate exited 0\n*error 1: Invalid read*")
    yield Row("a program by its name, with options", ["use-after-free.elf", "--error-exitcode=7", "--num-callers=1"], 7,
              "*error 1: Invalid read*")


def error_rows():
    """Lines of errors: the program, what failed, which thing, and why."""
    yield Row("errors: a value that is missing", ["when", "three-words.elf", "--last"], 2, "",
              "*replaycheck when: argument --last: expected one argument\n*")
    yield Row("errors: a value that can't be read", ["when", "three-words.elf", "--last=x", "y"], 2, "",
              "*replaycheck when: argument --last: 'x' is not a number from 0 to 4194304\nusage: *")
    yield Row("errors: a negative number", ["when", "three-words.elf", "--last", "-1", "y"], 2, "",
              "*replaycheck when: argument --last: '-1' is not a number*")
    yield Row("errors: a value of a flag", ["lines", "packet.elf", "--full-paths=yes"], 2, "",
              "*replaycheck lines: argument --full-paths: ignored explicit argument 'yes'\n*")
    yield Row("errors: a choice", ["run", "packet.elf", "--format", "yaml"], 2, "",
              "*replaycheck run: argument --format: invalid choice: 'yaml' (choose from 'text',*")
    yield Row("errors: a file too many, after --", ["when", "three-words.elf", "x", "--", "-y"], 2, "",
              "*replaycheck when: unrecognized arguments: -y\nusage: *")


ROWS = [row
        for rows in (talk_rows, when_rows, compare_rows, suppress_rows, word_rows, lines_rows, run_rows, launcher_rows, error_rows)
        for row in rows()]
