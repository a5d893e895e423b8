"""A report of the program: read into parts, and printed again as the same bytes."""
from __future__ import annotations

import re
from dataclasses import dataclass

from replaycheck.endings import Fault
from replaycheck.verdicts import LEAK_KINDS, SUMS

# The lines of a report. Each is matched as a whole.
STEP = re.compile(r"step ([0-9]+)")
RUNNING = re.compile(r"state running (0x[0-9a-f]{8})")
EXITED = re.compile(r"state exited ([0-9]+)")
STOPPED = re.compile(r"state stopped (jump|break|illegal|misaligned) (0x[0-9a-f]{8})")
READ = re.compile(r"input ([0-9]+) of ([0-9]+)")
WRITTEN = re.compile(r"output ([0-9]+)")
ERROR = re.compile(r"error ([0-9]+): (.+)")
FRAME = re.compile(r"   (at|by) (0x[0-9a-f]{8}): ([!-~]+)")
LEAK = re.compile(r"leak ([0-9]+) bytes in ([0-9]+) blocks are (.+)")
NOTE = re.compile(r" Address (0x[0-9a-f]{8}) is (.+)")
BLOCK = re.compile(r"([0-9]+) bytes (inside|before|after) a block of size ([0-9]+) (alloc'd|free'd)")
PLACES = ("in the stack region", "not stack'd, malloc'd or (recently) free'd")
SUM = re.compile(r"([^:]+): ([0-9]+) bytes in ([0-9]+) blocks")
SUMMARY = re.compile(r"ERROR SUMMARY: ([0-9]+) errors from ([0-9]+) contexts \(suppressed: ([0-9]+) from ([0-9]+)\)")
# The texts of errors, with what suppressions call each: that of a bad access ends with the size, which its name has too, and that of a call
# has its parameter. The page has the same patterns.
TEXTS = tuple((re.compile(text), kind) for text, kind in (
    (r"(?:Invalid read of size |Invalid write of size )([124])", "Addr"),
    (r"Syscall param (\S+)(?: contains uninitialised byte\(s\)| contains unaddressable byte\(s\)| points to uninitialised byte\(s\)"
     r"| points to unaddressable byte\(s\))", "Param"),
    (r"Use of uninitialised value of size 4", "Value4"),
    (r"Conditional jump or move depends on uninitialised value\(s\)", "Cond"),
    (r"Invalid free\(\) / realloc\(\)", "Free"),
    (r"Jump to the invalid address stated on the next line", "Jump")))


class NoReport(Fault):
    """A line isn't the one that a report has there."""


def kind_of(text: str) -> str | None:
    """What suppressions call an error with this text; None where no error has it."""
    for pattern, kind in TEXTS:
        found = pattern.fullmatch(text)
        if found:
            return kind + found[1] if kind == "Addr" else kind
    return None


class Address(int):
    """An address: a number that prints as a report prints it, `0x` and eight digits."""

    __slots__ = ()

    def __str__(self):
        return f"0x{self:08x}"

    __repr__ = __str__


@dataclass
class Frame:
    """A line of a trace: the address of an instruction, and the name of its function, `???` where it has none."""

    address: Address
    name: str


@dataclass
class Note:
    """Where a bad address lies. Near a block: how far from it, on which side, its size, and its trace."""

    address: Address
    place: str
    offset: int | None = None
    side: str | None = None
    size: int | None = None
    block: str | None = None
    trace: list[Frame] | tuple[()] = ()


@dataclass
class Error:
    """An error of a report: the number of times that it happened, its text, its trace, and a note on a bad address."""

    count: int
    text: str
    trace: list[Frame]
    note: Note | None

    @property
    def kind(self):
        """Its name in suppressions."""
        return kind_of(self.text)

    @property
    def parameter(self):
        """Which one of a call, for the kind Param."""
        return self.text.split(" ")[2]


@dataclass
class Leak:
    """A leak of a report, such as `definitely lost`: its bytes, its blocks, and the trace of their allocation."""

    size: int
    blocks: int
    kind: str
    trace: list[Frame]


@dataclass
class State:
    """`running` at an address, `exited` with a status, or `stopped` for a reason at an address."""

    name: str
    address: Address | None = None
    status: int | None = None
    why: str | None = None

    def __str__(self):
        return " ".join(str(part) for part in (self.name, self.why, self.address, self.status) if part is not None)


@dataclass
class Sum:
    """Bytes and blocks, of all leaks of a kind."""

    size: int
    blocks: int


@dataclass
class Report:
    """A report: the step, how the program ends or where it runs, how much of its input it has read, the bytes that it has written, errors,
    leaks that are listed, the sums of all, and the numbers of the last line. `text` is the report as it came, where that is kept."""

    step: int
    state: State
    position: int
    length: int
    written: int
    errors: list[Error]
    leaks: list[Leak]
    sums: dict[str, Sum]
    happened: int
    contexts: int
    suppressed: int
    suppressed_contexts: int
    text: str = ""

    def __str__(self):
        return "".join(line + "\n" for line in lines_of(self))


# ---- printing


def trace_lines(trace):
    for index, frame in enumerate(trace):
        yield f"   {'by' if index else 'at'} {frame.address}: {frame.name}"


def lines_of(report):
    """The lines of a report."""
    yield f"step {report.step}"
    yield f"state {report.state}"
    yield f"input {report.position} of {report.length}"
    yield f"output {report.written}"
    for error in report.errors:
        yield f"error {error.count}: {error.text}"
        yield from trace_lines(error.trace)
        if error.note:
            yield f" Address {error.note.address} is {error.note.place}"
            yield from trace_lines(error.note.trace)
    for leak in report.leaks:
        yield f"leak {leak.size} bytes in {leak.blocks} blocks are {leak.kind}"
        yield from trace_lines(leak.trace)
    for kind in SUMS:
        yield f"{kind}: {report.sums[kind].size} bytes in {report.sums[kind].blocks} blocks"
    yield (f"ERROR SUMMARY: {report.happened} errors from {report.contexts} contexts "
           f"(suppressed: {report.suppressed} from {report.suppressed_contexts})")


# ---- reading


class Lines:
    """Lines that are taken one after another, with their numbers."""

    def __init__(self, lines):
        self.lines, self.number = iter(lines), 0
        self.addresses = {}
        self.next = None
        self.go_on()

    def go_on(self):
        self.next, self.number = next(self.lines, None), self.number + 1

    def take(self, shape):
        """The fields of the next line, which is taken then; None where the line has another shape."""
        found = shape.fullmatch(self.next) if self.next is not None else None
        if found:
            self.go_on()
        return found

    def address(self, text):
        """The address that a field is: one number for each text, as traces have the same ones again and again."""
        if text not in self.addresses:
            self.addresses[text] = Address(text, 16)
        return self.addresses[text]

    def must(self, shape, what):
        """The same of a line that a report must have here."""
        return self.take(shape) or self.fault(what)

    def fault(self, what):
        came = "the end" if self.next is None else repr(self.next[:80])
        raise NoReport(f"no report: line {self.number} must be {what}, and is {came}")


def read_trace(lines):
    trace = []
    while lines.next is not None and lines.next.startswith("   "):
        found = lines.must(FRAME, "a frame")
        if found[1] != ("by" if trace else "at"):
            raise NoReport(f"no report: line {lines.number - 1} is out of turn: {found[0]!r}")
        trace.append(Frame(lines.address(found[2]), found[3]))
    return trace or lines.fault("a frame")


def read_note(lines):
    found = lines.take(NOTE)
    if not found:
        return None
    block = BLOCK.fullmatch(found[2])
    if block:
        return Note(lines.address(found[1]), found[2], int(block[1]), block[2], int(block[3]), block[4], read_trace(lines))
    return Note(lines.address(found[1]), found[2]) if found[2] in PLACES else lines.fault("behind a note on an address")


def read_errors(lines):
    errors = []
    found = lines.take(ERROR)
    while found:
        if not kind_of(found[2]):
            raise NoReport(f"no report: line {lines.number - 1} has no text of an error: {found[0]!r}")
        errors.append(Error(int(found[1]), found[2], read_trace(lines), read_note(lines)))
        found = lines.take(ERROR)
    return errors


def read_leaks(lines):
    leaks = []
    found = lines.take(LEAK)
    while found:
        if found[3] not in LEAK_KINDS:
            raise NoReport(f"no report: line {lines.number - 1} has no kind of leak: {found[0]!r}")
        leaks.append(Leak(int(found[1]), int(found[2]), found[3], read_trace(lines)))
        found = lines.take(LEAK)
    return leaks


def read_sums(lines):
    sums = {}
    for kind in SUMS:
        found = lines.must(SUM, f"the sum `{kind}: ..`")
        if found[1] != kind:
            raise NoReport(f"no report: line {lines.number - 1} must be the sum `{kind}: ..`, and is {found[0]!r}")
        sums[kind] = Sum(int(found[2]), int(found[3]))
    return sums


def read_state(lines):
    found = lines.take(RUNNING)
    if found:
        return State("running", address=lines.address(found[1]))
    found = lines.take(EXITED)
    if found:
        return State("exited", status=int(found[1]))
    found = lines.must(STOPPED, "`state ..`")
    return State("stopped", why=found[1], address=lines.address(found[2]))


def read_report(lines):
    """The report that the next lines are."""
    step = int(lines.must(STEP, "`step N`")[1])
    state = read_state(lines)
    given, written = lines.must(READ, "`input P of L`"), lines.must(WRITTEN, "`output W`")
    errors, leaks, sums = read_errors(lines), read_leaks(lines), read_sums(lines)
    last = lines.must(SUMMARY, "the summary of errors")
    return Report(step, state, int(given[1]), int(given[2]), int(written[1]), errors, leaks, sums,
                  *map(int, last.groups()))


def reports_in(texts):
    """The reports in a text of reports and of other replies of a session, remarks and lines with `> ` before them."""
    lines = Lines(texts)
    while lines.next is not None:
        if STEP.fullmatch(lines.next):
            yield read_report(lines)
        elif lines.next.startswith(("error ", "leak ", "   at ", "   by ", " Address ", "ERROR SUMMARY: ")):
            lines.fault("outside a report")
        else:
            lines.go_on()
