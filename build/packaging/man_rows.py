"""What man pages have that no page of help has: examples, files, and which page to read next. tests/package/test-man runs each example."""
from typing import NamedTuple


class Example(NamedTuple):
    """A command, typed in examples/firmware: what it shows, what it prints on both outputs (a line `...` is any lines), its status, and
    the programs that it needs besides."""

    says: str
    command: str
    prints: str = ""
    status: int = 0
    needs: tuple[str, ...] = ()


ADDR2LINE = ("riscv64-unknown-elf-addr2line",)
ASSEMBLER = ("riscv64-unknown-elf-as", "riscv64-unknown-elf-ld", "riscv64-unknown-elf-objdump")
SESSION = "replaycheck session station.elf --input station.input"
EXAMPLES = {
    "": (
        Example("The first error of a program that reads a block after it has freed it:",
                "replaycheck run ../use-after-free.elf | grep -A 4 '^error'", """\
error 1: Invalid read of size 4
   at 0x00010050: first_item
   by 0x00010040: total
   by 0x0001001c: main
 Address 0x40000010 is 0 bytes inside a block of size 8 free'd
"""),
        Example("A file for a command is short for `run`:", "replaycheck ../use-after-free.elf | tail -n 1",
                "ERROR SUMMARY: 1 errors from 1 contexts (suppressed: 0 from 0)\n")),
    "run": (
        Example("A report. The program read all 41 bytes of its input, and made no error:",
                "replaycheck run station.elf --input station.input", """\
step 1048576
state exited 0
input 41 of 41
output 14
definitely lost: 0 bytes in 0 blocks
indirectly lost: 0 bytes in 0 blocks
possibly lost: 0 bytes in 0 blocks
still reachable: 0 bytes in 0 blocks
suppressed: 0 bytes in 0 blocks
ERROR SUMMARY: 0 errors from 0 contexts (suppressed: 0 from 0)
"""),
        Example("A line for CI, here for a program with an error:",
                "replaycheck run ../use-after-free.elf \\\n--error-exitcode=9 >report.txt", status=9)),
    "exec": (
        Example("A test without an error. Its output and its status pass through:",
                "replaycheck exec -q --error-exitcode=9 \\\n--input station.input station.elf", "harbour 00231\n"),
        Example("A test with an error, which goes to a log:",
                "printf '\\004' >freed.input\nreplaycheck exec -q --error-exitcode=9 --input freed.input \\\n--log-file=log.txt kinds.elf",
                status=9),
        Example("The error in the log:", "grep -A 1 Invalid log.txt | sed 's/^==[0-9]*== *//'",
                "Invalid write of size 4\nat 0x102AC: provoke (kinds.c:44)\n", needs=ADDR2LINE)),
    "session": (
        Example("What another second byte of the input would have changed:",
                f"printf 'goto 2000\\ninput 1 8\\nreport\\n' |\n{SESSION} |\ngrep -v ': 0 bytes'", """\
ok
ok
step 2000
state exited 0
...
error 1: Invalid write of size 1
...
ERROR SUMMARY: 1 errors from 1 contexts (suppressed: 0 from 0)
"""),),
    "look": (
        Example("The last step before 684 that writes the byte at 0x7fffffc7:",
                "printf 'goto 684\\nlook last write 0x7fffffc7 1 0\\n' |\nreplaycheck look station.elf --input station.input",
                "ok\nstep 657\n"),),
    "tries": (
        Example("Two values of byte 39. The second does something new, on six sides of instructions:",
                "printf 'goto 2000\\ntry 39 00\\ntry 39 69\\n' |\nreplaycheck tries station.elf --input station.input",
                "ok\noutcome 0\nexited 0\ntried 0 new 377 again 103\ntried 0 new 6 again 0\n"),
        Example("The byte is compared with 0x69:",
                "printf 'goto 2000\\ndiffers 39 00\\n' |\nreplaycheck tries station.elf --input station.input",
                "ok\n691 0x00010570 0x00000063 0x00000069 0x00000000 0x00000069\nend\n")),
    "sweep": (
        Example("Two values of byte 1: one edit has the outcome of the unedited run, the other one doesn't:",
                "replaycheck sweep station.elf --input station.input \\\n--bytes 1 --values 6,8 | tail -n 3",
                "tally 0 1\ntally 1 1\nend 2 2 2097044\n"),),
    "certify": (
        Example("A clean run. The rest of the line says what that means:",
                "replaycheck certify station.elf --input station.input | cut -d: -f1", "clean to step 4194304\n"),
        Example("A run that isn't clean:", "replaycheck certify ../use-after-free.elf >verdict.txt", status=5),
        Example("Its line names the first use:", "cut -d: -f1-3 verdict.txt | cut -d' ' -f1-11",
                "not clean: first use at step 14: Invalid read of size\n")),
    "adopt": (
        Example("What keeps the file of a board from running:", "replaycheck adopt board.elf >found.txt", status=1),
        Example("Its last line says how far it will run:", "tail -n 1 found.txt", "board.elf will run once it is cured\n"),
        Example("A file that runs, with each change:", "replaycheck adopt board.elf -o check.elf | grep -A 2 '^changed'", """\
changed in check.elf:
  offset 0x00001214, 4 bytes: 0x20400214: _malloc_r: mv a0,a1
  offset 0x00001218, 4 bytes: 0x20400218: _malloc_r: j malloc
""")),
    "compare": (
        Example("What changes if the first byte of a packet says eight:",
                "replaycheck compare ../packet.elf \\\n--input ../packet.input 'input 0 8'", """\
--- at step 1048576
+++ after input 0 8
@@ -2,9 +2,14 @@
 state exited 6
 input 8 of 8
 output 0
+error 1: Invalid read of size 1
+   at 0x00010044: total
+   by 0x00010028: main
...
+ERROR SUMMARY: 1 errors from 1 contexts (suppressed: 0 from 0)
""", 1),),
    "coverage": (
        Example("How much of a source file an input reaches:",
                "replaycheck coverage station.elf --input station.input |\ngrep '^File\\|^station' | cut -c1-57", """\
File                    Lines      Branches     Functions
station.c        75/85  88.2%   43/62 69.4%    8/8 100.0%
""", needs=ADDR2LINE),
        Example("The source with its lines coloured, by lcov's genhtml:",
                "replaycheck coverage station.elf --input station.input \\\n--format lcov --output station.info\n"
                "genhtml -q --branch-coverage -o html station.info", needs=(*ADDR2LINE, "genhtml"))),
    "explore": (
        Example("Which instruction of a check starts a wrong image if it is skipped:",
                "replaycheck explore boot.elf --input boot.input --code verify \\\n--goal 'exited 0'",
                "patch 0x0001023c 0x00000013\nstill running at step 10000: 1 other edit; --step N looks further\n"
                "reached by 1 of 13 edits: a line that begins with `exited 0`\n", 1),
        Example("Every value of each byte that is read, with a picture of all outcomes:",
                "replaycheck explore station.elf --input station.input \\\n--svg picture.svg >summary.txt", status=1),
        Example("Which lines no edit reaches, and the same for `genhtml`:",
                "replaycheck explore station.elf --input station.input \\\n--bytes 15..18 --values edges --lcov edits.info |\n"
                "grep -o '^executed: [^)]*)'", "executed: 79 of 85 lines of station.c (never 32,45,56,68,70,109)\n",
                needs=ADDR2LINE)),
    "gdb": (
        Example("What gdb has to know before it connects:", "replaycheck gdb --commands >replaycheck.gdb"),
        Example("The step at which gdb begins:",
                "gdb-multiarch -nx -batch -x replaycheck.gdb station.elf \\\n"
                "-ex 'target remote | replaycheck gdb station.elf' \\\n-ex 'print $step' 2>/dev/null | grep '^\\$1'", "$1 = 0\n",
                needs=("gdb-multiarch",))),
    "guards": (
        Example("The gap after an object, as a line of a session:", "replaycheck guards kinds.elf 2>said.txt",
                "mark 0 0x20004 12 noaccess\n"),
        Example("How many objects have one:", "head -n 1 said.txt | cut -d';' -f1",
                "replaycheck guards: 1 of 3 objects have a closed byte after them\n"),
        Example("A report with the marks:",
                "{ replaycheck guards kinds.elf 2>said.txt\nprintf 'goto 2000\\nreport\\n'; } |\n"
                "replaycheck session kinds.elf --input kinds.input |\ngrep '^ERROR'",
                "ERROR SUMMARY: 0 errors from 0 contexts (suppressed: 0 from 0)\n")),
    "lines": (
        Example("The source line of an error that an edit leads to:",
                f"printf 'goto 2000\\ninput 1 8\\nreport\\n' |\n{SESSION} |\nreplaycheck lines station.elf | grep -A 1 '^error'",
                "error 1: Invalid write of size 1\n   at 0x00010204: set_name (station.c:34)\n", needs=ADDR2LINE),),
    "origin": (
        Example("A mark that removes an error, and so shows which byte was never written:",
                "replaycheck origin station.elf --input station.input \\\n--line 'input 37 5' | tail -n 1",
                "mark 40 0x7fffffc7 1 defined\n"),),
    "page": (
        Example("A copy, to send or to serve:", "replaycheck page --output site | tail -n 1", "site/page: to serve\n"),
        Example("What is in it:", "ls site", "index.html\npage\nreplaycheck.html\n")),
    "search": (
        Example("Inputs that lead to errors, from no input at all:",
                "replaycheck search station.elf --jobs 1 --runs 20000 \\\n--out found >summary.txt 2>progress.txt", status=1),
        Example("How many errors, leaks and stops that is:", "grep -c 'bytes is' summary.txt", "6\n"),
        Example("The report of the first of them:",
                "replaycheck run station.elf --input found/findings/01.input |\ngrep '^error'", "error 1: Invalid write of size 1\n")),
    "suppress": (
        Example("A suppression for the error of a report:", "replaycheck run ../use-after-free.elf | replaycheck suppress", """\
{
   Invalid read of size 4
   Memcheck:Addr4
   fun:first_item
   fun:total
   fun:main
}
"""),),
    "talk": (
        Example("Two lines, of which one is rejected:",
                "printf 'input 99 1\\ninput 1 8\\n' |\nreplaycheck talk station.elf --input station.input -",
                "> input 99 1\nrefused 3: no such byte of the input\n> input 1 8\nok\n", 1),),
    "when": (
        Example("The step at which all input has been read:",
                "replaycheck when station.elf --input station.input 'input 41 of 41'", "55\n"),
        Example("The step at which an edited run makes its first error:",
                "replaycheck when station.elf --input station.input \\\n--line 'input 37 5' 'error 1: Conditional'", "685\n"),
        Example("A text that no report has:", "replaycheck when station.elf --input station.input 'exited 7'", status=1)),
    "word": (
        Example("An instruction:", "replaycheck word 'addi a0,a2,4'", "0x00460513\n", needs=ASSEMBLER),
        Example("An instruction of 16 bits:", "replaycheck word --isa=rv32imc 'c.li a0,1'", "0x4505\n", needs=ASSEMBLER),
        Example("A read of a control register:", "replaycheck word --isa=rv32imc 'csrr a0,mhartid'", "0xf1402573\n", needs=ASSEMBLER),
        Example("An atomic instruction:", "replaycheck word --isa=rv32imac 'amoadd.w a0,a1,(a2)'", "0x00b6252f\n", needs=ASSEMBLER),
        Example("A call of a function, at an address:", "replaycheck word 'jal malloc' --at 0x101e8 --symbols station.elf",
                "0x730000ef\n", needs=ASSEMBLER)),
}
# What `replaycheck` itself has, whose help lists commands.
SYNOPSES = {"": ["replaycheck COMMAND [ARGUMENT..]", "replaycheck FILE [OPTION..]", "replaycheck help COMMAND", "replaycheck --version"]}
STATUSES = {"": (
    ("0", "it did what was asked; of a tool also: the answer is yes, or there is nothing new"),
    ("1", "a file can't be read, or the output can't be written; of a tool: the answer is no, or there is something new"),
    ("2", "the command line is at fault, or a tool failed: a line on standard error says what, and why"),
    ("3", "the program, the suppressions or the input was refused, by a number that the page of the command explains"),
    ("4", "out of memory"), ("5", "`certify`: the run isn't clean, or goes on without `--step`"))}
ENVIRONMENTS = {"": (("REPLAYCHECK", "the program to run instead of the usual one"),)}
PAGES = (("/usr/share/replaycheck/replaycheck.html", "the page for a browser, in one file that opens from disk"),
         ("/usr/share/replaycheck/page", "the same as a folder to serve"),
         ("/usr/share/replaycheck/index.html", "a recording that leads to it, for a site"))
FILES = {"": (("/usr/share/doc/replaycheck/manual/index.html", "the manual, with what each error means and how to compile a program"),
              ("/usr/share/replaycheck/examples", "programs with their sources and inputs, to copy"), *PAGES), "page": PAGES}
SEE_ALSO = {
    "run": ("session", "certify", "lines", "suppress"), "exec": ("run", "certify", "suppress"),
    "session": ("talk", "look", "compare"), "look": ("session", "tries", "when", "gdb"), "tries": ("look", "session", "explore"),
    "sweep": ("explore",), "certify": ("run", "origin"), "adopt": ("run", "word"), "compare": ("session", "lines"),
    "coverage": ("run", "look", "explore"), "guards": ("session", "look"),
    "explore": ("sweep", "certify"), "gdb": ("look", "session"), "lines": ("run", "talk"), "origin": ("certify", "when", "look"),
    "page": ("session", "explore"), "search": ("explore", "coverage", "tries", "look"), "suppress": ("run",), "talk": ("session", "lines"),
    "when": ("session", "look"), "word": ("session", "lines"),
}
