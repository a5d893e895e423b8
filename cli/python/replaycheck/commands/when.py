"""Finds the first step whose report has a line with a text, by bisection in
one session.

usage: replaycheck when FILE [--input F] [--supp F] [--isa NAME]
         [--heap-region BEGIN] [--stack-region A..B]
         [--most-moved N] [--most-output N]
         [--line LINE].. [--last N] [--limit N] TEXT

Printed is the step. The text must stay in the report once it appears, as
errors, `state exited` and the length of the input that was read do. If it comes
and goes, some step at which it appears is found. If it isn't found and the run
goes on after the last step, a line on standard error says so.

Options:
  --input F    the file that the program reads
  --supp F     a file of suppressions
  --isa NAME   the instruction set: rv32im (the default), rv32imc or rv32imac
  --heap-region BEGIN
               where the heap's region begins; 0x40000000 by default
  --stack-region A..B
               the stack's region; 0x7f000000..0x80000000 by default
  --most-moved N, --most-output N
               the most bytes that one read or write moves, and
               that the program writes in all, or none for no
               limit; 4096 and 65536 by default
  --line LINE  a line of `replaycheck look` to begin with, such as an edit. May
               be given again and again
  --last N     the last step to look at, 1048576 by default
  --limit N    how far --last and the steps of lines may go: 4194304 by default,
               at most 2147483647

Exit status:
  0  it was found
  1  the report at the last step doesn't have the text; the run has ended or
     rests in a jump to itself, unless a line on standard error says otherwise
  2  it failed: a line on standard error says what, and why

Environment:
  REPLAYCHECK  the program to run instead of the usual one"""
from typing import Optional

from replaycheck.endings import Fault, write
from replaycheck.guest.encodings import read
from replaycheck.guest.rv32 import ZERO, jump
from replaycheck.options import USUAL_STEP, Parser, edit, one_line
from replaycheck.programs import unit_of
from replaycheck.sessions import Session

SELF_JUMP = jump(ZERO, 0)  # `j .`, and what `c.j .` stands for


class NotYet(Fault):
    """The text isn't there by the last step, and the run goes on after it."""

    status = 1


def goes_on(session: Session, last: int, isa: str) -> bool:
    """Whether the run goes on after a step: the program still runs there, and doesn't rest in a jump to itself."""
    _, state, *at = session.report_at(last)[1].split()
    if state != "running":
        return False
    code = bytes.fromhex(session.accepted(f"look memory {at[0]} 4")[0].rpartition(" ")[2])
    instruction = read(code, 0, len(code), unit_of(isa))
    return instruction is None or instruction[1] != SELF_JUMP


def first_step(session: Session, last: int, text: str) -> Optional[int]:
    """The first step at which the report has the text; None where that at the last step hasn't."""
    def has(step: int) -> bool:
        return any(text in line for line in session.report_at(step))
    if not has(last):
        return None
    low, high = 0, last
    while low < high:
        middle = (low + high) // 2
        low, high = (low, middle) if has(middle) else (middle + 1, high)
    return low


def main() -> int:
    parser = Parser(__doc__)
    parser.program_options()
    parser.add_argument("--line", type=edit, action="append", default=[])
    parser.step_option("--last", default=USUAL_STEP)
    parser.limit_option()
    parser.add_argument("text", type=one_line)
    options = parser.read()
    session = Session(options.file, options.input, options.supp, command="look", isa=options.isa, regions=options.regions,
                      limit=options.limit)
    for line in options.line:
        session.accepted(line)
    found = first_step(session, options.last, options.text)
    if found is None:
        if goes_on(session, options.last, options.isa):
            raise NotYet(f"not by step {options.last}; the run goes on")
        return 1
    write(f"{found}\n")
    return 0
