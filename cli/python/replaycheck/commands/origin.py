"""Finds where the undefined bits of an error came from, and shows by marks that
this is so.

usage: replaycheck origin FILE [--input F] [--supp F] [--isa NAME]
         [--heap-region BEGIN] [--stack-region A..B]
         [--most-moved N] [--most-output N]
         [--line LINE].. [--error N] [--last N] [--limit N]
         [--short | --long]

Printed are the error and its first step. Then each origin: the bytes, what made
them undefined (a block of the heap, a stack frame, a line) and where, and the
reads and writes by which they came to the error. Last a certificate: lines
`mark ..` without which the error happens and with which it doesn't; none can be
left out. Each was tried, in the same session.

Options:
  --input F    the file that the program reads
  --supp F     a file of suppressions
  --isa NAME   the instruction set: rv32im (the default), rv32imc or rv32imac
  --heap-region BEGIN
               where the heap's region begins; 0x40000000 by default
  --stack-region A..B
               the stack's region; 0x7f000000..0x80000000 by default
  --most-moved N, --most-output N
               the most bytes that one read or write moves, and
               that the program writes in all, or none for no
               limit; 4096 and 65536 by default
  --line LINE  a line of a session to begin with, such as an edit. May be given
               again and again
  --error N    the Nth of the errors that depend on undefined bits; the first by
               default
  --last N     the step of the report that has the error, 1048576 by default
  --limit N    how far --last and the steps of lines may go: 4194304 by default,
               at most 2147483647
  --short      search only the last 4,096 steps before the error, as is usual
               for an error after 100,000 steps. Bytes that were undefined
               before them are printed with their block
  --long       search all steps, also for such an error, in seconds

Exit status:
  0  found and certified
  1  there is no such error, or not all of it was found, and a line says so
  2  it failed: a line on standard error says what, and why

Environment:
  REPLAYCHECK  the program to run instead of the usual one"""


def main() -> int:
    from replaycheck.origins.command import options_of, origin  # here, as the page needs none of it
    return origin(options_of(__doc__))
