"""Writes a suppression for each error and each leak of reports, as blocks of a
file of suppressions, in the form of Valgrind's. Each has all functions of the
trace. With fewer frames, `...` and `*` it fits the next build, too.

usage: replaycheck suppress [REPORT..]

REPORT is a file of reports, or - for standard input, which is read if there is
none. A session's replies and the output of `replaycheck talk` will do, before
source lines are added.

Exit status:
  0  there is a suppression
  1  there is no error and no leak in the reports
  2  it failed: a line on standard error says what, and why"""
import sys
from collections.abc import Iterator

from replaycheck.endings import Fault, naming, write
from replaycheck.options import Parser
from replaycheck.reports import LEAK_KINDS, Frame, Report, reports_in


def frames_of(trace: list[Frame]) -> list[str]:
    return [f"   {'obj:*' if frame.name == '???' else 'fun:' + frame.name}\n" for frame in trace]


def blocks_of(report: Report) -> Iterator[tuple[str, str]]:
    """The suppressions of a report, each with its name."""
    for error in report.errors:
        words = [f"   Memcheck:{error.kind}\n"] + ([f"   {error.parameter}\n"] if error.kind == "Param" else [])
        yield error.text, "".join(words + frames_of(error.trace))
    for leak in report.leaks:
        words = ["   Memcheck:Leak\n", f"   match-leak-kinds: {LEAK_KINDS[leak.kind]}\n"]
        yield leak.kind, "".join(words + frames_of(leak.trace))


def lines_of(path: str) -> list[str]:
    with naming("standard input" if path == "-" else path), sys.stdin.buffer if path == "-" else open(path, "rb") as file:
        return file.read().decode("utf-8", "surrogateescape").replace("\r\n", "\n").split("\n")


def main() -> int:
    parser = Parser(__doc__)
    parser.add_argument("reports", nargs="*")
    options = parser.read()
    blocks: dict[str, str] = {}  # each with its name
    count = 0
    for path in options.reports or ["-"]:
        for report in reports_in(lines_of(path)):
            count += 1
            for name, block in blocks_of(report):
                blocks.setdefault(block, name)
    if not count:
        raise Fault("no report")
    write("".join(f"{{\n   {name}\n{block}}}\n" for block, name in blocks.items()))
    return int(not blocks)
