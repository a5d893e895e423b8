"""What the interface for scripts raises. All of it is an `Error`."""
from __future__ import annotations

from typing import Optional

from replaycheck import refusals

IMAGE_LINE, UNREADABLE = "replaycheck: ", "replaycheck: cannot read "
NO_MEMORY, NO_MEMORY_STATUS, USAGE_STATUS = "replaycheck: out of memory", 4, 2


class Error(Exception):
    """The base class of all exceptions of this package."""

    __module__ = "replaycheck"


class Usage(Error, ValueError):
    """An argument that no question can have: no number, a negative step, a name that the program's file doesn't have."""

    __module__ = "replaycheck"


class Refused(Error):
    """A line of a session or a file that is rejected. `number` is that of `refused N`, `meaning` says it in words, and `subject` is the
    line or the file. Of a file `kind` is "image", "input", "suppressions", "bytes" or "words"; of a line it is empty. `at_line` is the
    line of a file of suppressions, if there is one. The run stays as it was."""

    __module__ = "replaycheck"

    def __init__(self, subject: str, number: int, kind: str = "", at_line: Optional[int] = None) -> None:
        super().__init__(subject, number, kind, at_line)
        self.subject, self.number, self.kind, self.at_line = subject, number, kind, at_line
        self.meaning = refusals.WORDS.get(number, "a number that this version doesn't know")

    def __str__(self) -> str:
        kind = f"{self.kind} " if self.kind else ""
        place = f" at line {self.at_line}" if self.at_line is not None else ""
        return f"{self.subject}: {kind}refused {self.number}{place}: {self.meaning}"


class Unreadable(Error):
    """A file that can't be read: its `path`, and the `reason` in words."""

    __module__ = "replaycheck"

    def __init__(self, path: str, reason: str) -> None:
        super().__init__(path, reason)
        self.path, self.reason = path, reason

    def __str__(self) -> str:
        return f"cannot read {self.path}" + (f": {self.reason}" if self.reason else "")


class OutOfMemory(Error):
    """The program found no memory for what was asked. The run stays as it was."""

    __module__ = "replaycheck"


class Ended(Error):
    """The program has ended before it replied. `status` is its exit status, or `signal` the number of the signal that ended it; `said` is
    what it wrote to standard error. The next question starts it again, with the edits that were made."""

    __module__ = "replaycheck"

    def __init__(self, status: Optional[int], signal: Optional[int], said: str) -> None:
        super().__init__(status, signal, said)
        self.status, self.signal, self.said = status, signal, said

    def __str__(self) -> str:
        how = f"signal {self.signal}" if self.signal is not None else f"status {self.status}"
        said = self.said.strip()
        return f"the program ended before it replied, with {how}" + (f": {said}" if said else "")


def of_line(fault: refusals.Refused, line: str) -> Error:
    """Returns the exception for a line that is rejected."""
    return OutOfMemory(f"{line}: out of memory") if fault.number == 1 else Refused(line, fault.number)


def of_end(fault: refusals.Ended, names: dict[str, str]) -> Error:
    """Returns the exception for an end of the program. `names` are those that the caller gave the files, by what they are."""
    said = "\n".join(fault.lines)
    first = fault.lines[0] if fault.lines else ""
    if first == NO_MEMORY or fault.code == NO_MEMORY_STATUS:
        return OutOfMemory("out of memory")
    if first.startswith(UNREADABLE):
        return Unreadable(first[len(UNREADABLE):], refusals.why_unreadable(first[len(UNREADABLE):]))
    if first.startswith(IMAGE_LINE) and " refused " in first:
        kind, _, rest = first[len(IMAGE_LINE):].partition(" refused ")
        number, _, line = rest.partition(" at line ")
        if number.isdigit():
            return Refused(names.get(kind, kind), int(number), kind, int(line) if line.isdigit() else None)
    if fault.code == USAGE_STATUS:
        return Usage(said)
    return Ended(None if fault.code < 0 else fault.code, -fault.code if fault.code < 0 else None, said)
