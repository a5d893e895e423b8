"""Shows which lines, branches and functions of a program's source runs have
executed.

usage: replaycheck coverage FILE [--input F..]
         [--format summary|lcov|gcov-json] [--output OUT] [--step N] [--limit N]
         [--include PATTERN].. [--exclude PATTERN]..
         [--isa NAME] [--heap-region BEGIN] [--stack-region A..B]
         [--most-moved N] [--most-output N]

FILE is the program, with debug information (gcc -g). Each input is a run.
Counted is what any of the runs executed. A run that makes errors counts too.

A line is executed if one of its instructions was, or one of a call that is
inlined there. Lines without an instruction aren't counted: the compiler's
options say which these are. A branch is a conditional jump. It has two sides,
in this order: the run continues after it, and it is taken. A function is
executed if one of its instructions was, also where it is inlined. `malloc` and
the like, where the program has them by name, execute nothing of their own code.

Names of files that are below the current folder begin there.

Options:
  --input F..      the files that the program reads, each in a run of its own;
                   without it there is one run, with an empty input
  --format FORMAT  summary (the default) is a table to read; lcov an info file
                   for `genhtml` and others; gcov-json is in the form of the
                   JSON that gcov of GCC 14 writes. Counts are 1 or 0 there: a
                   run says whether a line was executed, and not how often
  --output OUT     the file to write, instead of standard output
  --include PATTERN
                   only source files whose names match one of the patterns
  --exclude PATTERN
                   not those that match one: `*` is any text, also with `/`,
                   `?` one character and `[a-z]` one of several. A name is what
                   is printed, or the whole path. Each may be given repeatedly
  --step N         the step up to which each run goes, 1048576 by default
  --limit N        how far --step may go: 4194304 by default, at most 2147483647
  --isa NAME       the instruction set: rv32im (the default), rv32imc or
                   rv32imac
  --heap-region BEGIN
                   where the heap's region begins; 0x40000000 by default
  --stack-region A..B
                   the stack's region; 0x7f000000..0x80000000 by default
  --most-moved N, --most-output N
                   the most bytes that one read or write moves, and
                   that the program writes in all, or none for no
                   limit; 4096 and 65536 by default

Exit status:
  0  all runs were made
  1  a run couldn't be made, as of an input that can't be read: a line on
     standard error says why. Written is what the other ones have executed
  2  it failed: a line on standard error says what, and why

Environment:
  REPLAYCHECK  the program to run instead of the usual one
  ADDR2LINE    the addr2line that finds source lines, instead of the first of
               riscv64-unknown-elf-addr2line, riscv64-linux-gnu-addr2line and
               addr2line on the path
  CXXFILT      the c++filt that makes names readable, instead of the first of
               riscv64-unknown-elf-c++filt, riscv64-linux-gnu-c++filt and
               c++filt on the path"""


def main() -> int:
    from replaycheck.covering.command import cover, options_of  # here, as the page needs none of it
    return cover(options_of(__doc__))
