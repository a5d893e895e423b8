"""Shows what edits change in a report: a diff of the report without them and the
one with them.

usage: replaycheck compare FILE [--input F] [--supp F] [--isa NAME] [--step N]
         [--heap-region BEGIN] [--stack-region A..B]
         [--most-moved N] [--most-output N] [--limit N]
         [--before SCRIPT] [--after SCRIPT] [LINE..]

Printed is what `diff -u` prints. `replaycheck lines` adds source lines to it.

Options:
  --input F        the file that the program reads
  --supp F         a file of suppressions
  --isa NAME       the instruction set: rv32im (the default), rv32imc or
                   rv32imac
  --heap-region BEGIN
                   where the heap's region begins; 0x40000000 by default
  --stack-region A..B
                   the stack's region; 0x7f000000..0x80000000 by default
  --most-moved N, --most-output N
                   the most bytes that one read or write moves, and
                   that the program writes in all, or none for no
                   limit; 4096 and 65536 by default
  --step N         the step of both reports, 1048576 by default
  --limit N        how far --step and the steps of lines may go: 4194304 by
                   default, at most 2147483647
  --before SCRIPT  a file of lines for the first report. The second report has
                   only the lines of --after and of the command line
  --after SCRIPT   a file of lines for the second report, before those of the
                   command line. In both files empty lines, and lines that begin
                   with #, are remarks

Exit status:
  0  the reports are the same
  1  they differ
  2  a line was rejected, or it failed: a line on standard error says why

Environment:
  REPLAYCHECK  the program to run instead of the usual one"""
from __future__ import annotations

import subprocess
import tempfile
from argparse import Namespace

from replaycheck.endings import Fault, naming, start, write
from replaycheck.options import USUAL_STEP, BadValue, Parser, edit
from replaycheck.sessions import Session, script_of

NEEDS = "it takes diff, of Debian's diffutils"


def lines_in(path: str | None) -> list[str]:
    """The lines of a script, each an edit."""
    if path is None:
        return []
    with open(path, encoding="utf-8", errors="surrogateescape") as script:
        lines = script_of(script.read().replace("\r\n", "\n").split("\n"))
    try:
        return [edit(line) for line in lines]
    except BadValue as fault:
        raise Fault(f"{path}: {fault}") from None


def reports_of(options: Namespace, before: list[str], after: list[str]) -> tuple[list[str], list[str]]:
    """The reports after two lists of lines: of one session where the second list begins with the first one."""
    def opened() -> Session:
        return Session(options.file, options.input, options.supp, command="look", isa=options.isa, regions=options.regions,
                       limit=options.limit)
    session, lines = opened(), after
    for line in before:
        session.accepted(line)
    first = session.report_at(options.step)
    if after[:len(before)] == before:
        lines = after[len(before):]
    else:
        session = opened()
    for line in lines:
        session.accepted(line)
    return first, session.report_at(options.step)


def differences(labels: tuple[str, str], reports: tuple[list[str], list[str]]) -> tuple[int, str]:
    """The status and the words of diff over two lists of lines."""
    with naming(tempfile.gettempdir()), tempfile.TemporaryFile() as left, tempfile.TemporaryFile() as right:
        for file, lines in zip((left, right), reports):
            file.write("".join(line + "\n" for line in lines).encode("utf-8", "surrogateescape"))
            file.flush()
        words = [word for label in labels for word in ("--label", label)]
        files = (left.fileno(), right.fileno())
        child = start(["diff", "-u", *words, *(f"/dev/fd/{number}" for number in files)], NEEDS, stdout=subprocess.PIPE,
                      pass_fds=files)
        told = child.communicate()[0].decode("utf-8", "surrogateescape")
    if child.returncode not in (0, 1):
        raise Fault(f"diff ended with status {child.returncode}")
    return child.returncode, told


def main() -> int:
    parser = Parser(__doc__)
    parser.program_options()
    parser.step_option("--step", default=USUAL_STEP)
    parser.limit_option()
    parser.add_argument("--before")
    parser.add_argument("--after")
    parser.add_argument("lines", nargs="*", type=edit)
    options = parser.read()
    if not (options.lines or options.before or options.after):
        parser.error("no line, no --before and no --after")
    before, after = lines_in(options.before), lines_in(options.after) + options.lines
    old = f"after {'; '.join(before)}" if before else f"at step {options.step}"
    new = f"after {'; '.join(after)}" if after else f"at step {options.step}"
    status, told = differences((old, new), reports_of(options, before, after))
    write(told)
    return status
