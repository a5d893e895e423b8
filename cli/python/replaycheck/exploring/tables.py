"""The table of a sweep, or of a part of one, read place by place. What a sweep wouldn't write is refused, with the
number of its line."""
import re
from dataclasses import dataclass, field
from typing import Dict, List, Union

from replaycheck.guest.lines import NUMBER, Lines, shown
from replaycheck.programs import unit_of
from replaycheck.reports import LEAK_KINDS, kind_of

from .heads import Head, read_head
from .ranges import NO_OP, WORD, Code, Half, Range, length_of
from .steps import Steps

ROW = re.compile(rb"(?:input (%b) (%b)|patch (0x[0-9a-f]{8}) (0x[0-9a-f]{8})|patch16 (0x[0-9a-f]{8}) (0x[0-9a-f]{4})"
                 rb"|((?:skip|flip|set) (%b)(?:[; ][!-~ ]*)?)) (%b)" % ((NUMBER,) * 4))
# How a row begins.
EDITS = (b"input ", b"patch ", b"patch16 ", b"skip ", b"flip ", b"set ")
# What begins a line that isn't one of an outcome.
NO_OUTCOME = (*EDITS, b"unedited ")
OUTCOME = re.compile(rb"outcome (%b)" % NUMBER)
STATE = re.compile(rb"running|exited %b|stopped (?:break|illegal|misaligned) 0x[0-9a-f]{8}|stopped jump" % NUMBER)
WRITTEN = re.compile(rb"output %b" % NUMBER)
FRAME = re.compile(rb"   (at|by) 0x[0-9a-f]{8}: [!-~]+")
TALLY = re.compile(rb"tally (%b) (%b)" % (NUMBER, NUMBER))
SIDES = re.compile(rb"sides (0x[0-9a-f]{8}) ([0-3]{1,64})")
END = re.compile(rb"end (%b) (%b) (%b)" % (NUMBER, NUMBER, NUMBER))
UNEDITED = re.compile(rb"unedited 0")
EDGES = (0, 1, 0x7F, 0x80, 0xFF)
MOST_FRAMES, MOST_LINES = 24, 200000
LINE_PLACES = 64
NO_FRAME = b"Jump to the invalid address stated on the next line"


@dataclass
class Place:
    """A byte, a word, an instruction or a step, its ordinal among all places, and its edits: the values, and the numbers of their outcomes.
    A value of a step is the edit's text. `length` is how many bytes an instruction has."""

    range: Union[Range, Steps]
    at: int
    ordinal: int
    length: int = WORD
    edits: Dict[Union[int, str], int] = field(default_factory=dict)

    @property
    def values(self):
        return list(self.edits)

    @property
    def last_ordinal(self):
        """The last ordinal that belongs to the place."""
        return self.ordinal + self.range.ordinals_of(self.length) - 1


# ---- an outcome


def read_trace(lines, may_be_none):
    count = 0
    while lines.next.startswith(b"   "):
        found = lines.must(FRAME, "a frame")
        if found[1] != (b"by" if count else b"at"):
            lines.fault("a frame out of turn")
        count += 1
    if count > MOST_FRAMES or not (count or may_be_none):
        lines.fault(f"{count} frames")


def read_outcome(lines, has_output):
    """The lines of an outcome, joined."""
    taken = lines.taken = []
    lines.must(STATE, "a state")
    if has_output:
        lines.must(WRITTEN, "`output W`")
    while not lines.next.startswith(NO_OUTCOME) and len(taken) < MOST_LINES:
        text = lines.next.decode("ascii", "replace")
        if text not in LEAK_KINDS and not kind_of(text):
            lines.other("an error, a leak or an edit")
        lines.go_on()
        read_trace(lines, lines.was == NO_FRAME)
    if len(taken) >= MOST_LINES:
        lines.fault(f"an outcome of more than {MOST_LINES} lines")
    lines.taken = None
    return b"\n".join(taken)


# ---- the value that stood at a place


def byte_before(values, edited):
    """The byte that stood where these values are all the edits of it; None where they aren't, or where that can't be
    told."""
    if values == "all":
        rest = set(range(256)) - set(edited)
        return rest.pop() if len(rest) == 1 else None
    if values == "flips":
        was = sum(1 << bit for bit in range(8) if sum(value >> bit & 1 for value in edited) > 4)
        return was if sorted(was ^ 1 << bit for bit in range(8)) == edited else None
    if values == "edges":
        near = {(value + away) % 256 for value in edited for away in (1, -1)}
        return next((was for was in near if sorted({*EDGES, (was + 1) % 256, (was - 1) % 256} - {was}) == edited), None)
    return None


def word_before(values, edited, length):
    """The instruction of this length in bytes, or the word, that stood where these values are all the edits of it; None if they aren't,
    or if that can't be told."""
    if values == "flips" and len(edited) == 8 * length:
        was = edited[0] ^ 1
        return was if [was ^ 1 << bit for bit in range(8 * length)] == edited else None
    return None


def value_before(place):
    if place.range.kind == "bytes":
        return byte_before(place.range.values, place.values)
    return word_before(place.range.values, place.values, place.length)


def has_all(place):
    """Whether the edits of a place are all that the sweep makes there, in order."""
    values, edited = place.range.values, place.values
    if place.range.kind == "steps":
        return place.range.has_all(place.at, edited)
    wanted = place.range.wanted(place.at)
    if wanted is not None:
        return edited == wanted
    if isinstance(values, str) and values != "skip":
        return value_before(place) is not None
    wanted = [NO_OP[place.length]] if values == "skip" else sorted(values) if place.range.kind == "bytes" else list(values)
    if values != "skip" and place.length != WORD:
        return False
    return edited == wanted or len(edited) == len(wanted) - 1 and edited == [value for value in wanted if value in set(edited)]


# ---- a table


class Table:
    """A table whose head is read; `places` reads on. `outcomes` are the texts that were met, by number."""

    def __init__(self, file, name, number=0):
        self.lines = Lines(file, name, number)
        self.head: Head = read_head(self.lines)
        self.name = f"{self.lines.name} (part {self.head.part[0]}/{self.head.part[1]})"
        self.outcomes: List[bytes] = []
        self.known: Dict[bytes, int] = {}
        self.tallies: List[int] = []
        self.edits = self.steps = 0
        self.sides: Dict[int, bytes] = {}
        self.read_new()
        self.lines.must(UNEDITED, "`unedited 0`")
        self.tallies[0] = 0

    def read_new(self):
        """A new outcome."""
        found = self.lines.must(OUTCOME, "`outcome K`")
        if int(found[1]) != len(self.outcomes):
            self.lines.fault(f"outcome {len(self.outcomes)} comes here")
        text = read_outcome(self.lines, self.head.has_output)
        if text in self.known:
            self.lines.here(f"outcome {len(self.outcomes)} is outcome {self.known[text]}")
        self.known[text] = len(self.outcomes)
        self.outcomes.append(text)
        self.tallies.append(-1)  # of which no edit was read yet

    def rows(self):
        """The edits, each its kind, place, value and outcome."""
        lines, tallies = self.lines, self.tallies
        while True:
            if lines.next.startswith(b"outcome "):
                self.read_new()
            found = ROW.fullmatch(lines.next)
            if not found:
                if lines.next.startswith(b"tally ") and tallies[-1] >= 0:
                    return
                lines.other("an edit, `outcome K` or `tally K COUNT`")
            outcome = int(found[9])
            if outcome >= len(tallies) or tallies[-1] < 0 and outcome != len(tallies) - 1:
                lines.here(f"outcome {len(tallies) - 1} comes here: {shown(lines.next)}")
            tallies[outcome] = tallies[outcome] + 1 if tallies[outcome] >= 0 else 1
            self.edits += 1
            yield (*edit_of(found), outcome)
            lines.go_on()

    def places(self, before=-1, is_last=True):
        """The places in order, each with its edits, those that have none left out. If the places of the sweep aren't counted, `before` is
        the last ordinal of the part before, and `is_last` says whether no part comes after."""
        interval = self.head.interval
        last, place = interval[0] - 1 if interval else before, None
        for kind, at, value, outcome in self.rows():
            if place is None or at != place.at or kind != place.range.kind or length_of(value) != place.length:
                if place:
                    self.close(place)
                    yield place
                place = self.open(kind, at, value, last)
                last = place.last_ordinal
            if value in place.edits:
                again = "" if place.edits[value] == outcome else ", with two outcomes"
                self.lines.here(f"the edit `{place.range.line(at, value)}` stands there twice{again}")
            if len(place.edits) == place.range.most:
                self.lines.here(f"more edits of a place than {place.range.most}: {shown(self.lines.next)}")
            place.edits[value] = outcome
        if place:
            self.close(place)
            yield place
        if interval or is_last:
            self.none_left_out(last, interval[1] if interval else self.head.places)
        self.read_end()

    def open(self, kind, at, value, last):
        """A place that comes after another one, and is the part's."""
        before, interval = 0, self.head.interval
        for one_range in self.head.ranges:
            if one_range.takes(kind, at, value):
                ordinal = before + (at - one_range.start) // one_range.stride
                if interval and not interval[0] <= ordinal < interval[1]:
                    self.lines.here(f"an edit of another part: {shown(self.lines.next)}")
                if ordinal <= last:
                    self.lines.here(f"an edit out of turn: {shown(self.lines.next)}")
                self.none_left_out(last, ordinal)
                return Place(one_range, at, ordinal, length_of(value))
            before += one_range.size
        if any(isinstance(code, Code) and code.first <= at <= code.last for code in self.head.ranges if kind == "words"):
            self.lines.here(f"the program has no instruction of {8 * length_of(value)} bits there: {shown(self.lines.next)}")
        return self.lines.here(f"an edit outside of the sweep: {shown(self.lines.next)}")

    def none_left_out(self, last, ordinal):
        """Refuses the next line where a place between two ordinals must have an edit."""
        before = 0
        for one_range in self.head.ranges if ordinal > last + 1 else ():
            begin, end = max(last + 1 - before, 0), min(ordinal - before, one_range.size)
            at = one_range.first_missing(begin, end) if begin < end else None
            if at is not None:
                self.lines.here(f"a gap: no edit of {one_range.called(at)}")
            before += one_range.size

    def close(self, place):
        if not has_all(place):
            self.lines.here(f"a gap, or edits out of turn: those of {place.range.called(place.at)} aren't all that values "
                            f"{place.range.values if isinstance(place.range.values, str) else 'of the list'} are")

    def read_end(self):
        for number, tally in enumerate(self.tallies):
            found = self.lines.must(TALLY, f"`tally {number} {tally}`")
            if (int(found[1]), int(found[2])) != (number, tally):
                self.lines.fault(f"`tally {number} {tally}` comes here")
        if self.head.has_sides:
            self.read_sides()
        found = self.lines.must(END, f"`end {self.edits} {len(self.outcomes)} STEPS`")
        if (int(found[1]), int(found[2])) != (self.edits, len(self.outcomes)):
            self.lines.fault(f"`end {self.edits} {len(self.outcomes)} ..` comes here")
        self.steps = int(found[3])
        if self.lines.next and not self.lines.next.startswith(b"sweep "):
            self.lines.here(f"something behind the end: {shown(self.lines.next)}")

    def read_sides(self):
        """What the runs have executed: lines of digits, in order, each of them with another digit than 0."""
        lines, stride, first, last = self.lines, LINE_PLACES * unit_of(self.head.isa), None, None
        while lines.next.startswith(b"sides "):
            found = lines.must(SIDES, "`sides ADDR DIGITS`")
            at, digits = int(found[1], 16), found[2]
            first = at if first is None else first
            if last is not None and (at <= last or (at - first) % stride or len(self.sides[last]) < LINE_PLACES) or not digits.strip(b"0"):
                lines.fault("a line out of turn")
            self.sides[at], last = digits, at


def edit_of(found):
    """The edit that a pattern has found in a row: its kind, place and value."""
    if found[7]:
        return "steps", int(found[8]), found[7].decode()
    if found[1]:
        return "bytes", int(found[1]), int(found[2])
    return ("words", int(found[3], 16), int(found[4], 16)) if found[3] else ("words", int(found[5], 16), Half(found[6], 16))
