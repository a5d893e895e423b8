"""The log of a quiet run, which the launcher has made. It needs no parser of command lines: a test that fails has to cost little more than
one that passes."""
import sys

from replaycheck.executing.choices import Choices
from replaycheck.executing.logs import Log, guarded, log_text, parsed
from replaycheck.programs import USUAL


def write_log(process: str, first: str, options: list[str], file: str) -> int:
    """Writes the log of a run by a process, on a file and with options of the program, `--NAME=VALUE`. Its report is on standard input
    after its first byte."""
    def main() -> int:
        isa = next((word.partition("=")[2] for word in options if word.startswith("--isa=")), USUAL)
        choices = Choices(file=file, quiet=True, isa=isa)
        told = first + sys.stdin.buffer.read().decode("utf-8", "surrogateescape")
        Log(choices).write(log_text(choices, told, parsed(told), process))
        return 0
    return guarded(main)
