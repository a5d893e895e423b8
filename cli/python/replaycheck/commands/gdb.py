"""Lets gdb go through a recorded run, forwards and backwards, and edit it on the
way.

usage: replaycheck gdb FILE [--input F] [--supp F] [--isa NAME]
         [--heap-region BEGIN] [--stack-region A..B]
         [--most-moved N] [--most-output N] [--limit N] [--port N]
       replaycheck gdb --commands

gdb's serial protocol comes on standard input, and the answers go to standard
output:

  replaycheck gdb --commands >replaycheck.gdb
  gdb-multiarch -x replaycheck.gdb program.elf
  (gdb) target remote | replaycheck gdb program.elf --input bytes

A stop is a step of the run: `$step` is its number, and reverse-stepi,
reverse-continue and their like go back. `watch`, `rwatch` and `awatch` stop in
both directions. `$a0s1` has the undefined bits of a0, as Valgrind names them.
`set var`, `set $a0`, `jump` and a call of a function change the run at the step
where gdb stands, as edits: going back undoes them, going on makes them again.
`monitor help` lists the lines that edit the run, look at it, and find errors.
gdb shows what `replaycheck look` prints of the edited run. Sources: gdb's
manual, appendices E and G; Valgrind's manual, section 3.2; Memcheck's, section
4.6.

Options:
  --input F   the file that the program reads
  --supp F    a file of suppressions
  --isa NAME  the instruction set: rv32im (the default), rv32imc or rv32imac
  --heap-region BEGIN
              where the heap's region begins; 0x40000000 by default
  --stack-region A..B
              the stack's region; 0x7f000000..0x80000000 by default
  --most-moved N, --most-output N
              the most bytes that one read or write moves, and
              that the program writes in all, or none for no
              limit; 4096 and 65536 by default
  --limit N   the last step of the run: 4194304 by default, at most 2147483647
  --port N    wait at port N of this computer, 127.0.0.1, for one gdb, and end
              with it: `target remote 127.0.0.1:N`. Any program of this computer
              may connect. With 0 it takes a free port, and prints that on
              standard error
  --commands  print what gdb does after each `monitor`: it reads registers and
              memory anew

Exit status:
  0  gdb has left
  2  it failed: a line on standard error says what, and why

Environment:
  REPLAYCHECK  the program to run instead of the usual one"""


def main() -> int:
    from replaycheck.debugging.command import debug, options_of  # here, as the page needs none of it
    return debug(options_of(__doc__))
