"""The rows of tests/gdb/test-gdb: what gdb is typed and prints, and packets of its protocol with their answers.

Steps of station.elf were counted outside of the program: by what `qemu-riscv32 -d exec,nochain -singlestep` tells of each instruction,
from 0 on, with a call of the heap as one. `parse` writes `unit`, at 0x7fffffc7, by the instruction at 0x10474 in step 657, `main` reads
it at 0x106a8 in step 683, `show` begins in step 686, and the program exits in step 881."""
import json
from dataclasses import dataclass, field
from typing import List, Tuple

from guest_files import ENTRY
from limit_rows import USES
from random_programs import DATA
from replaycheck.guest.assembly import assemble

UNIT = "*(char *) 0x7fffffc7"
TO_SHOW = ["break show", "continue"]
NO_UNIT = ["monitor input 37 5"]  # no record tells the unit: `show` branches on it in step 684
ON = "monitor stop_at_errors on"
NO_MORE = "No more reverse-execution history."
TRAP = "Program received signal SIGTRAP"
NO_ADDRESS = "a run goes on from where it is: set pc first"
NO_STEP = "monitor goto N goes to a step"
NO_CONTROL = "no edit sets a control register: only an instruction of the program does"
WITH_CONTROLS = ["--isa", "rv32imac"]
ENDED = "the program has ended: nothing changes any more"
ABOVE = "no bytes lie above 2^32"
FULL = "refused 10: there are 4096 marks already"


@dataclass
class Case:
    """Lines that gdb is typed, texts that it prints in turn, and texts that it doesn't print. `options` are those of the tool."""

    label: str
    typed: List[str]
    told: Tuple[str, ...]
    untold: Tuple[str, ...] = ()
    options: List[str] = field(default_factory=list)


def at(step):
    """What `monitor step` tells there, up to where the program is."""
    return f"step {step}, "


CASES = [
    Case("a breakpoint", [*TO_SHOW, "print $step"], ("Breakpoint 1, show (station=0x7fffffc8, unit=99 'c')", "$1 = 686")),
    Case("a hardware breakpoint", ["hbreak *0x10474", "continue", "print $step"], ("Breakpoint 1, 0x00010474 in parse", "$1 = 657")),
    Case("a breakpoint with a condition", ["break add_level if $step > 400", "continue", "print $step"], ("add_level (", "$1 = 407")),
    Case("a breakpoint that is passed over, and one that is gone", ["tbreak add_level", "continue", "break add_level", "ignore 2 1",
         "continue", "print $step", "reverse-continue", "delete", "reverse-continue"], ("Temporary", "$1 = 407", "add_level", NO_MORE)),
    Case("back to a breakpoint", ["break add_level", "monitor end", "reverse-continue", "reverse-continue", "print $step"],
         ("Breakpoint 1, add_level", "Breakpoint 1, add_level", "$1 = 407")),
    Case("back to a write", [*TO_SHOW, "up", "watch -l unit", "reverse-continue", "print $step"],
         ("Old value = 99 'c'", "New value = 0 '\\000'", "0x00010474 in parse", "station.c:97", "$1 = 657")),
    Case("on to a write", [f"watch {UNIT}", "continue", "print $step"], ("Old value = 0", "New value = 99", "$1 = 658")),
    Case("on to a read", [f"rwatch {UNIT}", "continue", "print $step"], ("Value = 99 'c'", "$1 = 684")),
    Case("back to a read", ["monitor end", f"rwatch {UNIT}", "reverse-continue", "print $step"], ("Value = 99 'c'", "$1 = 683")),
    Case("on to each access", [f"awatch {UNIT}", "continue", "continue", "print $step"], ("New value = 99", "Value = 99", "$1 = 684")),
    Case("back to each access", ["monitor end", f"awatch {UNIT}", "reverse-continue", "reverse-continue", "print $step"],
         ("Value = 99", "Old value = 99", "New value = 0", "$1 = 657")),
    Case("a step that writes what is watched", ["monitor goto 657", f"watch {UNIT}", "stepi", "print $step"],
         ("watchpoint 1", "New value = 99", "$1 = 658")),
    Case("a step back over such a write", ["monitor goto 658", f"watch {UNIT}", "reverse-stepi", "print $step"],
         ("watchpoint 1", "New value = 0", "$1 = 657")),
    Case("a line that writes what is watched", [f"watch {UNIT}", "tbreak *0x10470", "continue", "next"], ("Temporary", "New value = 99")),
    Case("a breakpoint at a watched write, back", ["break *0x10474", "monitor goto 700", f"watch {UNIT}", "reverse-continue", "print $step",
         "reverse-continue", "print $step"], ("Breakpoint 1, 0x00010474", "$1 = 657", NO_MORE, "$2 = 0")),
    Case("a breakpoint behind a watched write, back", ["break *0x10478", "monitor goto 700", f"watch {UNIT}", "reverse-continue",
         "print $step", "reverse-continue", "print $step"], ("Breakpoint 1,", "$1 = 658", "New value = 0", "$2 = 657")),
    Case("a write of many bytes", ["watch *(char (*)[41]) 0x20000", "continue", "print $step"], ("watchpoint 1", "$1 = 55")),
    Case("single steps", ["stepi 10", "print $step", "reverse-stepi 3", "print $step", "print $pc"],
         ("$1 = 10", "$2 = 7", "0x100bc <_start+28>")),
    Case("back from the start", ["stepi", "reverse-stepi", "reverse-stepi", "print $step"], (NO_MORE, "$1 = 0")),
    Case("lines, and back", [*TO_SHOW, "next", "next", "reverse-next", "print $step"],
         ("station.c:105", "107\t", "108\t", "107\t", "$1 = 68")),
    Case("out of a function, and back out of it", [*TO_SHOW, "delete", "finish", "print $step", "reverse-step", "reverse-finish",
         "print $step"], ("in main () at", "$1 = 833", "117\t", "in main () at", "$2 = 685")),
    Case("to the end, and back", ["continue", "print $step", "reverse-stepi", "print $step", "print $pc"],
         ("[exited 0 at step 882]", NO_MORE, "$1 = 882", "$2 = 881", "0x101a0")),
    Case("no step behind the end", ["monitor end", "stepi", "print $step"], ("[exited 0 at step 882]", NO_MORE, "$1 = 882")),
    Case("back from far behind the end", ["monitor goto 4000000", "print $pc", "reverse-stepi", "print $step"], ("0x101a0", "$2 = 881")),
    Case("undefined bits of registers", [*NO_UNIT, "monitor goto 684", "print/x $a1", "print/x $a1s1", "print/x $sps1"],
         ("= 0x0", "= 0xff", "= 0x0")),
    Case("registers by groups", ["info registers general", "info registers shadow"], ("sp ", "0x7ffffff0", "step ", "zeros1 ", "t6s1 ")),
    Case("control registers", ["monitor goto 100", "info registers csr", "print $mcycle", "print/x $mscratchs1", "set $mscratch = 5",
         "set $mscratchs1 = 1", "monitor changes"],
         ("mstatus ", "mscratch ", "mhartid ", "$1 = 100", "$2 = 0x0", NO_CONTROL, NO_CONTROL, "no edits"), options=WITH_CONTROLS),
    Case("a function is called where there are control registers", [*TO_SHOW, "print (int) strlen(station->name)", "print $mcycle"],
         ("= 7\n", "= 721"), options=WITH_CONTROLS),
    Case("a counter counts what is left out", ["monitor goto 5", "monitor skip", "stepi", "print $step", "print $minstret"],
         ("= 6\n", "= 7\n"), options=WITH_CONTROLS),
    Case("no control registers for rv32im", ["print $mstatus", "info registers csr"], ("$1 = void",), ("mstatus ",)),
    Case("memory, and code", ["x/2xb 0x20000", "monitor goto 55", "x/2xb 0x20000", "x/i $pc", "output/x *(char *) 0xffffffff"],
         ("0x00\t0x00", "0x01\t0x07", "=> 0x10158 <read+8>:\tret", "0x0")),
    Case("a trace", ["monitor goto 657", "backtrace"], ("#0  0x00010474 in parse", "#1  0x00010674 in main () at")),
    Case("an edit, and on in the edited run", [*TO_SHOW, *NO_UNIT, "print $step", "delete", "tbreak show", "monitor goto 0", "continue",
         "print $step"], ("unit=99", "ok\nstep 686, running, pc 0x00010578", "$1 = 686", "unit=0", "$2 = 679")),
    Case("the end of an edited run", ["monitor end", *NO_UNIT, "monitor end"], (at(882), "ok", at(882), at(875))),
    Case("an error that an edit makes", [ON, "continue", *NO_UNIT, "monitor goto 0", "continue"],
         ("[exited 0 at step 882]", "[step 684 makes")),
    Case("an edit is taken back", [*NO_UNIT, "monitor input 37 4", *TO_SHOW, "print $step"], ("ok", "ok", "unit=99", "$1 = 686")),
    Case("an instruction that is edited", ["x/i 0x101e0", "monitor patch 0x101e0 0x00460513", "x/i 0x101e0"],
         ("add\ta0,a2,3", "ok\nstep 0, ", "add\ta0,a2,4")),
    Case("a byte more of the input", ["monitor input append 7", "monitor end", "monitor report"], ("ok", "input 42 of 42")),
    Case("stop at errors", [*NO_UNIT, ON, "continue", "print $step", "stepi", "monitor errors"],
         ("stop_at_errors on", "[step 684 makes an error: Conditional jump or move", TRAP, "$1 = 684", "1 errors from 1")),
    Case("on from an error", [*NO_UNIT, ON, "continue", "continue"], ("[step 684 makes", "[exited 0 at step 875]"), ("[step 685",)),
    Case("back to an error", [*NO_UNIT, ON, "monitor end", "reverse-continue", "print $step", "reverse-continue"],
         ("[step 684 makes", "$1 = 684", NO_MORE)),
    Case("an error in the step behind a breakpoint", [*NO_UNIT, ON, "break *0x1056c", "continue", "print $step", "continue", "print $step"],
         ("Breakpoint 1,", "$1 = 683", "[step 684 makes", "$2 = 684")),
    Case("back to an error at a breakpoint", [*NO_UNIT, ON, "break *0x10570", "monitor end", "reverse-continue", "print $step"],
         ("[step 684 makes", "Breakpoint 1, 0x00010570", "$1 = 684")),
    Case("an error at a breakpoint", [*NO_UNIT, ON, "break *0x10570", "continue", "continue", "continue"],
         ("Breakpoint 1, 0x00010570", "[step 684 makes", "Breakpoint 1, 0x00010570", "[exited 0 at"), ("[step 685",)),
    Case("errors no more", [*NO_UNIT, ON, "monitor stop_at_errors off", "continue"], ("[exited 0 at step 875]",), (TRAP,)),
    Case("a suppressed error", [*NO_UNIT, "monitor supp add Cond fun:show fun:main fun:_start", ON, "continue"],
         ("ok", "ok", "[exited 0 at step 875]"), (TRAP,)),
    Case("where undefined bits came from", [*NO_UNIT, "monitor goto 684", "monitor origin"],
         ("origin 1: 1 byte at 0x7fffffc7, undefined in step 39 by a new stack frame", "mark 40 0x7fffffc7 1 defined")),
    Case("no such error", ["monitor origin 2"], ("no such error",)),
    Case("a mark at this step", [*NO_UNIT, "monitor goto 55", "monitor make_memory defined 0x7fffffc7 1", "monitor end", "monitor errors"],
         ("ok\nstep 55, running", "0 errors from 0")),
    Case("bytes without access", ["monitor make_memory NOACCESS 0x10000", ON, "monitor get_vbits 0x0ffff 3", "monitor unmark 0",
         "monitor check_memory addressable 0xfffe 3"], ("____00", "ok",
          "Address 0x0000fffe len 3 not addressable:\nbad address 0x0000fffe")),
    Case("undefined bits of memory", [*NO_UNIT, "monitor goto 684", "monitor get_vbits 0x7fffffc0 36",
         "monitor check_memory defined 0x7fffffc6 2"],
         (f"ffffffff ffffffff {' '.join(['00000000'] * 6)}\nffffffff\n", "Address 0x7fffffc6 len 2 not defined:\nbad address 0x7fffffc6")),
    Case("memory that is well", ["monitor check_memory defined 0x10200 64", "monitor check_memory addressable 0x20000 256"],
         ("Address 0x00010200 len 64 defined\n", "Address 0x00020000 len 256 addressable\n")),
    Case("blocks, and who points at them", ["monitor goto 600", "monitor block_list", "monitor who_points_at 0x40000010 8"],
         ("0x40000010 8 from 0x00010918 0x000101e8 0x00010484\n"
          "0x40000040 8 from 0x000109a4 0x00010340 0x000103fc\n"
          "0x40000070 8 from 0x00010918 0x00010260 0x00010520\n3 blocks\n", "word at 0x7fffffc8 points 0 bytes inside")),
    Case("where it is, and in which calls", ["monitor goto 600", "monitor backtrace", "monitor backtrace 1"],
         ("#0  0x00010488 in parse\n#1  0x00010670 in main\n#2  0x00010148 in _start\n", "too many arguments: backtrace")),
    Case("a register points at a block", ["break *0x101ec", "continue", "monitor who_points_at 0x4000000f 2"],
         ("register a0 points 1 bytes",)),
    Case("nobody points there", ["monitor block_list", "monitor who_points_at 0x50000000 16"], ("0 blocks", "nothing points there")),
    Case("leaks", ["monitor input 32 3", "monitor leak_check", "monitor end", "monitor leak_check"],
         ("still reachable: 0 bytes", "leak 8 bytes in 1 blocks are definitely lost", "add_limits")),
    Case("a lost block that is suppressed is a block", ["monitor input 32 3", "monitor supp add Leak ...", "monitor end",
         "monitor block_list"],
         ("1 blocks\n",)),
    Case("where one is", ["monitor step", "monitor goto 0x37", "monitor step", "monitor end"],
         ("step 0, running, pc 0x000100a0", "step 55, running, pc 0x00010158", "step 55, ", "step 882, exited 0, pc 0x000101a0")),
    Case("what all cost", ["monitor worked"], ("worked 0",)),
    Case("lines that are none", ["monitor jump", "monitor goto x", "monitor goto 4194305", "monitor goto", "monitor get_vbits 0 0",
         "monitor get_vbits 0xffffffff 2", "monitor check_memory 0", "monitor stop_at_errors", "monitor stop_at_errors 1", "monitor step 1",
         "monitor make_memory set 0 1", "monitor origin x", "monitor"],
         ("no such line: jump", "'x' is not a number", "'4194305' is not a number", "too few arguments", "1 to 1048576 bytes",
          "that end at 2^32", "check_memory addressable, or defined", "too few arguments", "on, or off", "too many arguments",
          "make_memory noaccess, undefined", "'x' is not a number", "step      ")),
    Case("edits that are refused", ["monitor input 41 1", "monitor patch 0 0", "monitor patch16 0x10000 1", "monitor unmark 0",
         "monitor option colour 1", "monitor step"],
         ("refused 3: no such byte", "refused 4: no word", "refused 2: no such line", "refused 7: no such mark", "refused 9: ", at(0))),
    Case("a variable is set, and set back by going back", [*TO_SHOW, "delete", "set var unit = 5", "print unit", "reverse-stepi",
         "print $a1", "stepi", "print $a1", "print $step", "monitor changes", "monitor unmark 0", "print unit", "monitor changes"],
         ("unit=99", "= 5 '\\005'", "= 99", "= 5\n", "= 686", "0: set 686 x11 0x00000005\n", "ok\nstep 686, ", "= 99 'c'", "no edits\n")),
    Case("back to what was set", ["watch *(char *) 0x20004", "monitor goto 30", "set {int} 0x20004 = 3", "monitor goto 50",
         "reverse-continue", "print $step", "continue", "print $step", "reverse-continue", "reverse-continue", "print $step"],
         ("Old value = 3", "New value = 0", "$1 = 29", "Old value = 0", "New value = 3", "$2 = 30", "New value = 0", NO_MORE, "$3 = 0")),
    Case("steps over what was set", ["watch *(char *) 0x20004", "monitor goto 30", "set {int} 0x20004 = 3", "reverse-stepi", "print $step",
         "stepi", "print $step"], ("New value = 0", "$1 = 29", "New value = 3", "$2 = 30")),
    Case("on to bits that were turned", ["watch *(char *) 0x20004", "monitor goto 30", "monitor flip 0x20004 8", "monitor goto 0",
         "continue", "print $step"], ("Old value = 0", "New value = 8", "$1 = 30")),
    Case("what was set beside what is watched", ["watch *(char *) 0x20004", "monitor goto 30", "set {int} 0x20008 = 3", "monitor goto 50",
         "reverse-continue", "print $step"], (NO_MORE, "$1 = 0"), ("Old value",)),
    Case("memory is set in pieces", ["monitor goto 55", 'set {char[7]} 0x20000 = "abcdef"', "x/s 0x20000", "reverse-stepi", "x/1xb 0x20000",
         "stepi", "x/s 0x20000", "monitor changes"],
         ('"abcdef"', "0x00\n", '"abcdef"', '0: write 55 0x00020000 4 0x64636261\n1: write 55 0x00020004 2 0x6665\n'
          '2: write 55 0x00020006 1 0x00\n')),
    Case("who sets a register knows it", [*NO_UNIT, "monitor goto 684", "set $a1 = 98", "print/x $a1s1", "monitor end", "monitor errors"],
         ("= 0x0", "0 errors from 0")),
    Case("undefined bits are made defined", [*NO_UNIT, "monitor goto 684", "set $a1s1 = 0", "print $a1", "monitor end", "monitor errors",
         "monitor changes"],
         ("= 0\n", "0 errors from 0", "0: set 684 x11 0x00000000 0x00000000\n")),
    Case("undefined bits are set", ["monitor goto 684", "set $a1s1 = 0xff", "print/x $a1s1", "print $a1", "monitor end", "monitor errors",
         "monitor changes"],
         ("= 0xff", "= 99", "1 errors from 1", "0: set 684 x11 0x00000063 0x000000ff\n")),
    Case("a value that stands makes no edit", ["set $sp = $sp", "set $pc = $pc", "set $sps1 = 0", "monitor changes"], ("no edits",)),
    Case("an instruction is left out, this once", ["monitor goto 657", "monitor skip", "stepi", "print *(char *) 0x7fffffc7", "monitor end",
         "monitor errors", "monitor changes"],
         ("ok\nstep 657, running, pc 0x00010478", "= 0 ", "Conditional jump or move", "1 errors from 1", "0: skip 657\n")),
    Case("bits are turned", ["monitor goto 684", "monitor flip a1 4", "print $a1", "monitor flip $a1 0x4", "print $a1",
         "monitor flip 0x20000 1", "x/1xb 0x20000", "monitor flip s0 1", "monitor flip pc 4", "monitor set 684 a0 7",
         "print $a0", "monitor changes"],
         ("= 103", "= 99", "0x00\n", "pc 0x000106a8\n", "= 7", "0: flip 684 x11 4\n1: flip 684 x11 0x4\n2: flip 684 0x20000 1\n"
          "3: flip 684 x8 1\n4: flip 684 pc 4\n5: set 684 x10 7\n")),
    Case("what stands, and several taken back", ["monitor input 37 5", "monitor skip 5", "monitor make_memory defined 0x20000 1",
         "monitor skip 7", "monitor unmark 1..", "monitor changes", "monitor unmark 0..0", "monitor changes", "monitor unmark 0..",
         "monitor unmark 1..0", "monitor unmark x..", "monitor unmark"],
         ("ok\n", "   input 37 5\n0: skip 5\n", "   input 37 5\n", "0..: there are 0", "1..0: there are 0", "'x' is not a number",
          "unmark I, or")),
    Case("a jump", [*TO_SHOW, "delete", "jump *0x106b4", "monitor changes"],
         ("[exited 0 at step 735]", "0: set 686 pc 0x000106b4\n")),
    Case("a function is called, and the run goes on", [*TO_SHOW, "delete", "print (int) strlen(station->name)", "print $step",
         "print/x $pc", "print/x $t0s1", "monitor errors", "monitor end", "monitor errors", "monitor unmark 0..", "monitor end"],
         ("= 7\n", "= 721", "= 0x1055c", "= 0xffffffff", "0 errors", at(917), "0 errors from 0", "ok\n", at(882))),
    Case("a called function stops, and is finished", [*TO_SHOW, "break strlen", 'print (int) strlen("ab")', "delete", "print $step",
         "finish",
         "print $step", "print/x $a4s1"],
         ("Breakpoint 2, strlen (text=", "in a function called from GDB", "= 687", "show (", "Value returned is $2 = 2", "= 702", "= 0x0")),
    Case("what isn't altered", ["set $step = 5", "set {int} 0xfffffffe = 5", "monitor skip 1 2", "monitor flip a0",
         "monitor flip zero 1", "monitor write 0 0x20000 3 1", "monitor set 0 a0", "monitor skip 4194305", "monitor end", "set $a0 = 77",
         "set {char} 0x20000 = 77",
         "monitor changes"],
         (NO_STEP, ABOVE, "Cannot access memory", "too many arguments: skip", "too few arguments: flip", "refused 2: ", "refused 6: ",
          "refused 2: ", "refused 5: ", ENDED, ENDED, "no edits")),
    Case("gdb leaves", ["detach", "info registers pc"], ("detached", "no registers")),
    Case("gdb kills", ["kill", "info registers pc"], ("killed", "no registers")),
]

ILL = "E.a packet of gdb can't be read"
ASK = "qXfer:features:read:target.xml:"
BEGIN, END = "T05replaylog:begin;thread:1;", "T05replaylog:end;thread:1;"
HERE = "T05thread:1;"
AT_FIRST = "00" * 8 + "f0ffff7f" + "00" * 116 + "00000100"  # x0 to x31, and pc
# Programs of the packets: the first counts t0 down from 40,000 and then exits, in step 80,004; the other has no end.
COUNTS = "lui t0, 10; addi t0, t0, -960; again: addi t0, t0, -1; bne t0, zero, again; li a0, 3; li a7, 93; ecall"
PLACE = "20000"
FULL_BUT_8 = [f"M{PLACE},1ff0:" + "01" * 0x1FF0] * 2  # 4,088 pieces of four bytes
TURNS = "again: addi t0, t0, 1; j again"
# A run of TURNS up to a limit, and of a boot (limit_rows.USES) with its end and with its error behind the usual limit: label, the program,
# its limit, packets, of which some are lines of `monitor`, and the answer to the last, or what it prints.
LIMITED = [
    ("a run without an end", TURNS, 5000000, ["c", "p21"], "404b4c00"),
    ("the last step", TURNS, 5000000, ["goto 5000000", "s"], "T05replaylog:end;thread:1;"),
    ("a step above it", TURNS, 5000000, ["goto 5000001"], "'5000001' is not a number from 0 to 5000000\n"),
    ("on to a breakpoint", USES, 6100000, ["Z0,10020,4", "c", "p21"], "868d5b00"),
    ("and back to one in the boot", USES, 6100000, ["Z0,10020,4", "c", "Z0,10008,4", "bc", "p21"], "808d5b00"),
    ("the end, and a step back", USES, 6100000, ["c", "bs", "p21"], "888d5b00"),
    ("all the way back", USES, 6100000, ["c", "bc", "p21"], "00000000"),
    ("an edit of the last steps", USES, 6100000, ["c", "mark 6000003 0x7fffffe4 4 defined", "errors"],
     "ERROR SUMMARY: 0 errors from 0 contexts (suppressed: 0 from 0)\n"),
    ("an edit above the limit", TURNS, 5000000, ["skip 5000001"], "refused 5: a step above 4194304, or above N with --limit N"),
    ("where undefined bits come from", USES, 6100000, ["goto 6000008", "origin"], "undefined in step 6000002 by a new stack frame"),
]
# A program that has undefined bits in mscratch from step 3 on; packets that ask for mscratch, for its undefined bits, and for no register.
UNDEFINED = assemble("addi sp, sp, -16; lw a0, 0(sp); csrrw zero, mscratch, a0; nop")
MSCRATCH, MSCRATCH_BITS, NO_REGISTER = "p47", "p5f", "p72"
# A label, packets that are sent one after another, and the answer to the last. The program is COUNTS, at step 0; its words stand at
# 0x10000.
PACKETS = [
    ("why it stands", ["?"], HERE), ("one step", ["s", "?", "p21"], "01000000"), ("a step by a thread", ["vCont;s:1;c", "p21"], "01000000"),
    ("a step with a signal", ["S05", "p21"], "01000000"), ("back from the start", ["bs"], BEGIN),
    ("all the way back", ["s", "s", "bc"], BEGIN),
    ("pc", ["p20"], "00000100"), ("sp", ["p2"], "f0ffff7f"), ("undefined bits of t6", ["p41"], "00000000"),
    ("no such register", ["p42"], "E01"), ("all registers", ["g"], AT_FIRST),
    ("memory", ["m10000,4"], "b7a20000"), ("no memory there", ["m100000000,4"], "E01"), ("memory up to 2^32", ["mfffffffe,8"], "0000"),
    ("on to a breakpoint", ["Z0,10010,4", "c", "p21"], "82380100"), ("on with a signal", ["Z1,10010,4", "C05", "p21"], "82380100"),
    ("what is told of a breakpoint", ["Z0,10010,4", "vCont;c"], "T05swbreak:;thread:1;"),
    ("of a hardware breakpoint", ["Z1,10010,4", "c"], "T05hwbreak:;thread:1;"),
    ("a point that is taken out", ["Z0,10010,4", "z0,10010,4", "c"], END), ("at the end", ["c", "p21"], "85380100"),
    ("a point twice, and taken out once", ["Z0,10010,4", "Z0,10010,4", "z0,10010,4", "c"], END),
    ("a point that isn't there is taken out", ["z2,10010,4"], "OK"), ("no such sort of point", ["Z5,10010,4"], ""),
    ("a point above 2^32", ["Z0,100000000,4"], ""), ("a range of steps", ["vCont;r10000,10008:1", "p21"], "02000000"),
    ("a range that it is outside of is left after a step", ["vCont;r10010,10014", "p21"], "01000000"),
    ("a range up to the end", ["vCont;r0,100000000"], END), ("back to the last turn", ["c", "Z0,10008,4", "bc", "p21"], "80380100"),
    ("back over all turns", ["c", "Z0,10004,4", "bc", "p21"], "01000000"),
    ("an edit at once", ["qRcmd," + b"patch 0x10000 0x13".hex(), "m10000,4"], "13000000"),
    ("a line that isn't one of text", ["qRcmd,ff"], "OK"), ("half a line", ["qRcmd,f"], ILL), ("no line", ["qRcmd,zz"], ILL),
    ("threads", ["qfThreadInfo"], "m1"), ("no more threads", ["qsThreadInfo"], "l"), ("a thread", ["Hg0"], "OK"), ("alive", ["T1"], "OK"),
    ("what goes on", ["vCont?"], "vCont;c;C;s;S;r"), ("behind the description", [ASK + "ffffff,10"], "l"),
    *[(f"no such packet: {it!r}", [it], "") for it in ("", "vMustReplyEmpty", "qTStatus", "R00", "!", "QNonStop:1", "vKill;1", "\xff\x00",
                                                      "qXfer:memory-map:read::0,10", "vCont", "QStartNoAckMode2", "cc" * 9000)],
    *[(f"a packet that can't be read: {it!r}", [it], ILL)
      for it in ("M", "M1", "M10000,4:13", "M10000,4:1300000", "M10000,4:1300000x", "M10000:13", "P5", "P5=", "P5=0", "P=00000000",
       "P5=0000000000", "Px=00000000", "G", "G00", "m", "m1", "m1,2,3", "mzz,4", "m-1,4", "m1_0,4", "m 1,4",
       "m11111111111111111,4", "p", "p-1", "pzz", "Z0", "Z0,10000",
       "Z0,x,4",
                 "z1,1", "vCont;", "vCont;q", "vCont;r10", "vCont;r1,x", ASK, ASK + "0", ASK + "0,-1")],
    *[(f"from another address: {it!r}", [it], f"E.{NO_ADDRESS}") for it in ("c10000", "s10000", "C05;10000", "S05;10000")],
    ("memory is set", ["M10000,4:13000000", "m10000,4"], "13000000"), ("no memory is set", ["M10000,0:"], "OK"),
    ("memory is set as bytes", ["X10000,0:"], ""), ("memory above 2^32", ["Mfffffffe,4:00000000"], f"E.{ABOVE}"),
    ("a register is set", ["P5=01000000", "p5"], "01000000"), ("and to what it is", ["P5=00000000", "qRcmd," + b"changes".hex()], "OK"),
    ("x0 is set", ["P0=01000000"], "E.zero stays 0"), ("undefined bits of x0", ["P22=01000000"], "E.zero stays 0"),
    ("the step is set", ["P21=01000000"], f"E.{NO_STEP}"), ("no such register is set", ["P42=00000000"], "E01"),
    ("all registers are set", ["G" + AT_FIRST.replace("f0ffff7f", "e0ffff7f"), "p2"], "e0ffff7f"),
    ("as much is set as there may be marks", [*FULL_BUT_8, f"M{PLACE},20:" + "02" * 32, f"m{PLACE},1"], "02"),
    ("more is set: nothing of it", [*FULL_BUT_8, f"M{PLACE},24:" + "02" * 36, f"m{PLACE},1"], "01"),
    ("why", [*FULL_BUT_8, f"M{PLACE},24:" + "02" * 36], f"E.{FULL}"),
]


def whole(text):
    """A packet with its sum."""
    return f"${text}#{sum(text.encode('latin-1')) % 256:02x}".encode("latin-1")


def shown(text):
    """A text that gdb is to show."""
    return whole("O" + text.encode().hex())


# Bytes that are sent before the stream ends, and all that comes back. The program is COUNTS.
STEPPED, DONE = b"+" + whole(HERE), b"+" + whole("OK")
EXITED = b"+" + shown("[exited 3 at step 80005]\n") + whole(END)
STREAMS = [
    ("nothing", b"", b""), ("half a packet", b"$m100", b""), ("a packet without its sum", b"$m10000,4#", b""), ("half a sum", b"$s#7", b""),
    ("a wrong sum, and then the right one", b"$s#00$s#73", b"-" + STEPPED), ("no sum", b"$s#zz", b"-"),
    ("a packet that was cut, and another", b"$m10$s#73", STEPPED), ("bytes between packets", b"++\0\xff#s#73\x03$s#73", STEPPED),
    ("what was sent is asked for again", b"$s#73--", STEPPED + 2 * whole(HERE)), ("again before anything was sent", b"-$s#73", STEPPED),
    ("no acknowledgements", b"$QStartNoAckMode#b0+$s#73-$s#00", DONE + 2 * whole(HERE)), ("a sum in capitals", b"$k#6B$s#73", b"+"),
    ("detached, and a packet after it", b"$D#44$s#73", DONE), ("detached from a process", b"$D;1#b0$s#73", DONE),
    ("killed, and a packet after it", b"$k#6b$s#73", b"+"), ("an escaped byte", b"$}G#c4", b"+" + whole(AT_FIRST)),
    ("an escape that is cut", b"$s}#f0", STEPPED), ("a packet of a megabyte", b"$" + b"s" * (1 << 20) + b"#00$s#73", b"+$#00" + STEPPED),
    ("a hundred begins", b"$" * 100 + b"s#73", STEPPED), ("interrupts, which find it at its end", b"$c#63\x03\x03$s#73\x03",
     EXITED + EXITED),
]

REGISTERS = ("zero ra sp gp tp t0 t1 t2 fp s1 a0 a1 a2 a3 a4 a5 a6 a7 s2 s3 s4 s5 s6 s7 s8 s9 s10 s11 t3 t4 t5 t6 pc step "
             "zeros1 ras1 sps1 gps1 tps1 t0s1 t1s1 t2s1 fps1 s1s1 a0s1 a1s1 a2s1 a3s1 a4s1 a5s1 a6s1 a7s1 s2s1 s3s1 s4s1 s5s1 s6s1 s7s1 "
             "s8s1 s9s1 s10s1 s11s1 t3s1 t4s1 t5s1 t6s1").split()

# A label, words, the status, and a text that is told.
COMMANDS = [
    ("no file", [], 2, "FILE is wanted, or --commands alone"),
    ("a file, and commands", ["counts.elf", "--commands"], 2, "--commands alone"),
    ("commands, and a port", ["--commands", "--port=0"], 2, "--commands goes with no other option: --port=0"),
    ("its page", ["--help"], 0, "usage: replaycheck gdb FILE"), ("commands", ["--commands"], 0, "define hookpost-monitor\n"),
    ("a file that isn't there", ["missing"], 2, "cannot read missing"), ("a folder", ["."], 2, "cannot read ."),
    ("a file that is cut", ["cut.elf"], 2, "image refused 26"), ("no program", ["short"], 2, "image refused 20: no ELF file"),
    ("no input", ["counts.elf", "--input", "missing"], 2, "cannot read missing"),
    ("suppressions that are none", ["counts.elf", "--supp", "cut.elf"], 2, "suppressions refused 13"),
    ("an option twice", ["counts.elf", "--port=1", "--port=2"], 2, "--port is given twice"),
    ("no limit", ["counts.elf", "--limit=0"], 2, "--limit: '0' is not a number from 1 to 2147483647"),
    ("a limit too great", ["counts.elf", "--limit=2147483648"], 2, "--limit: '2147483648' is not a number from 1 to 2147483647"),
    ("no port", ["counts.elf", "--port=x"], 2, "'x' is no"),
    ("a port that there isn't", ["counts.elf", "--port=65536"], 2, "'65536' is not a number from 0 to 65535"),
    ("a file of that name", ["--", "-x.elf"], 2, "cannot read ./-x.elf"), ("another option", ["counts.elf", "--tcp"], 2, "--tcp"),
]


def editor(port):
    """What an editor asks of gdb's machine interface behind its setting: a command, how the line begins that it waits for, and texts that
    it is told in turn."""
    return [
        ("-gdb-set mi-async on", None, ("^done",)), ("-gdb-set auto-solib-add on", None, ("^done",)),
        ("-file-exec-and-symbols station.elf", None, ("^done",)), (f"-target-select remote 127.0.0.1:{port}", None, ("^connected",)),
        ("-break-insert -f show", None, ('^done,bkpt={number="1"', 'line="105"')),
        ("-exec-continue", "*stopped", ('*stopped,reason="breakpoint-hit"', 'func="show"', 'line="105"')),
        ("-thread-info", None, ('threads=[{id="1"', 'state="stopped"')), ("-stack-info-depth", None, ('depth="2"',)),
        ("-stack-list-frames 0 1000", None, ('func="show"', 'fullname="', 'func="main"')),
        ("-stack-list-arguments 2 0 0", None, ('name="station"', 'name="unit"')), ("-stack-select-frame 1", None, ("^done",)),
        ("-stack-list-variables 0", None, ('name="station"', 'name="unit"')),
        ("-var-create - * unit", None, ('name="var1"', "value=\"99 'c'\"")),
        ("-var-create - * station", None, ('name="var2"', 'numchild="6"')),
        ("-var-list-children --simple-values var2", None, ('exp="name"', 'exp="levels"', 'exp="count"')),
        ("-data-evaluate-expression $step", None, ('value="686"',)),
        ("-data-list-register-names", None, ('"zero"', '"pc"', '"step"', '"a0s1"')),
        ("-data-list-register-values x 2", None, ('number="2",value="0x7fffffc0"',)),
        ("-data-read-memory-bytes 0x20000 4", None, ('contents="01076861"',)),
        ("-data-disassemble -s $pc -e $pc+8 -- 0", None, ("asm_insns=",)),
        ("-stack-select-frame 0", None, ("^done",)), ("-exec-next", "*stopped", ('reason="end-stepping-range"', 'line="107"')),
        ("-exec-finish", "*stopped", ('reason="function-finished"', 'func="main"')),
        (f"-break-watch {json.dumps(UNIT)}", None, ('^done,wpt={number="2"',)),
        ("-exec-continue --reverse", "*stopped", ('reason="breakpoint-hit"', 'bkptno="1"')),
        ("-exec-continue --reverse", "*stopped", ('reason="watchpoint-trigger"', 'old="99', 'new="0', 'line="97"')),
        ("-exec-next-instruction", "*stopped", ('reason="watchpoint-trigger"',)),
        ("-exec-step-instruction --reverse", "*stopped", ("*stopped",)),
        ('-interpreter-exec console "monitor input 37 5"', None, ('@"ok\\n', "^done")),
        ("-data-evaluate-expression $pc", None, ("0x1049c",)),
        ("-exec-next", "*stopped", ('reason="end-stepping-range"', 'func="main"')),
        ("-exec-continue", "*stopped", ('func="show"', "*stopped")), ("-break-delete 1 2", None, ("^done",)),
        ("-exec-continue", "*stopped", ("[exited 0 at step 875]", NO_MORE, "*stopped")), ("-var-update --all-values *", None, ("^done",)),
        ("-gdb-set var $a0=1", None, ("^error", ENDED)), ("-target-detach", None, ("^done",)),
    ]


# ---- random stops

LAST = 4000  # steps in which the random programs of the first seeds have ended


def points(dice, count):
    """Breakpoints and watched ranges of the data and the stack: sort, address and length."""
    found = [(0, ENTRY + 4 * dice.randrange(count), 4) for _ in range(dice.randrange(1, 3))]
    for _ in range(dice.randrange(1, 4)):
        near = dice.choice((ENTRY + DATA, 0x7FFFFFB0)) + dice.randrange(-8, 72)
        found.append((dice.choice((2, 3, 4)), near, dice.choice((1, 4, 9, 40))))
    return dice.sample(found, len(found))


def arrival(packet, here, points, end):
    """The step that a packet leads to, of points with the steps that do what they stop at, in a program with so many steps. An access is
    stopped at before it, and backwards after it."""
    accesses = {step for (sort, *_), steps in points.items() if sort != 0 for step in steps}
    places = [step + (sort != 0) for (sort, *_), steps in points.items() for step in steps if step < here]
    if packet == "c":
        return min((step for steps in points.values() for step in steps if step >= here), default=max(here, end))
    if packet == "bc":
        return max(places, default=0)
    if packet == "s":
        return here if here >= end or here in accesses else here + 1
    back = min(here, end)
    return back if back == 0 or back - 1 in accesses else back - 1
