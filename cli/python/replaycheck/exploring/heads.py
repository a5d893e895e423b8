"""The head of a sweep's table: which files, edits and step it is of, and which of its parts."""
from __future__ import annotations

import re
from dataclasses import dataclass, replace
from typing import Callable, List, Optional, Tuple, Union

from replaycheck.guest.lines import NUMBER, BadTable, shown
from replaycheck.guest.regions import GREATEST_MOVED, GREATEST_OUTPUT, USUAL_MOVED, USUAL_OUTPUT, USUAL_REGIONS, Regions, is_heap, is_stack
from replaycheck.options import FURTHEST_STEP
from replaycheck.programs import ISAS, unit_of

from .ranges import Code, Range
from .steps import Steps, models_fault

MOST_PARTS, LONGEST_INPUT = 1000000, 1048576
DIGEST = re.compile(rb"(program|input|supp) (%b) ([0-9a-f]{64})" % NUMBER)
BYTES = re.compile(rb"bytes (%b)\.\.(%b) (all|flips|edges|%b(?:,%b)*)" % ((NUMBER,) * 4))
WORD = rb"0x[0-9a-f]{8}"
WORDS = re.compile(rb"words (%b)\.\.(%b) (skip|flips|%b(?:,%b)*)" % ((WORD,) * 4))
STEPS = re.compile(rb"steps (%b)\.\.(%b) ([!-~]+)(?: code (%b)\.\.(%b))?( pairs skip)?" % (NUMBER, NUMBER, WORD, WORD))
STEP = re.compile(rb"step (%b)" % NUMBER)
OUTPUT = re.compile(rb"output (yes|no)")
SIDES = b"sides yes"
PART = re.compile(rb"part (%b)/(%b)" % (NUMBER, NUMBER))
OLD = re.compile(rb"#\t(input|patch)\t")
SMALL = {"program": 1 << 27, "input": LONGEST_INPUT, "supp": LONGEST_INPUT}
ISA = re.compile(rb"isa ([a-z0-9]{1,20})")
HEAP = re.compile(rb"heap-region (%b)" % WORD)
STACK = re.compile(rb"stack-region (%b)\.\.(%b)" % (WORD, WORD))
MOVED = re.compile(rb"most-moved (%b)" % NUMBER)
MOST = re.compile(rb"most-output (none|%b)" % NUMBER)
# The versions of tables, each with what its head has: a table has the least version that can say what it is of.
VERSIONS = {b"sweep 1": "bytes or words", b"sweep 2": "steps too, an instruction set, regions, limits or sides"}


@dataclass(frozen=True)
class Head:
    """`lines` are those before `part`, as they stand there. A digest is a length and a sum."""

    lines: Tuple[bytes, ...]
    isa: str
    regions: Regions
    files: Tuple[Tuple[int, str], ...]
    ranges: Tuple[Union[Range, Steps], ...]
    has_sides: bool
    step: int
    has_output: bool
    part: Tuple[int, int]

    @property
    def places(self) -> int:
        """How many ordinals there are."""
        return sum(one_range.size for one_range in self.ranges)

    @property
    def is_counted(self) -> bool:
        """Whether it is known how many places there are: of instructions the program's file says that."""
        return not any(isinstance(one_range, Code) and one_range.known is None for one_range in self.ranges)

    @property
    def interval(self) -> Optional[Tuple[int, int]]:
        """The ordinals of the part: from one, up to and without another; None where the places aren't counted."""
        index, count = self.part
        if count == 1:
            return 0, self.places
        if not self.is_counted:
            return None
        total = sum(one_range.count for one_range in self.ranges)
        return self.ordinal(cut(total, index - 1, count)), self.ordinal(cut(total, index, count))

    def ordinal(self, number: int) -> int:
        """The ordinal of the place with a number among all: 0 for the first one, and the number of all ordinals past the last one."""
        before = 0
        for one_range in self.ranges if number else ():
            if number < one_range.count:
                return before + one_range.ordinal(number)
            before, number = before + one_range.size, number - one_range.count
        return before

    def over(self, known: Callable[[Code], Code]) -> Head:
        """The head with the instructions that the program's file has: `known` gives a range with them."""
        return replace(self, ranges=tuple(known(one_range) if isinstance(one_range, Code) else one_range for one_range in self.ranges))

    def same(self):
        """What must be equal in the parts of one sweep."""
        return self.isa, self.regions, self.files, self.ranges, self.has_sides, self.step, self.has_output


def told_isa(isa):
    """What follows the name of a program in a text: its instruction set, where that isn't the usual one."""
    return "" if isa == ISAS[0] else f" for {isa}"


def told_regions(regions):
    """The same of its regions of heap and stack."""
    return f" with {regions.told}" if regions.told else ""


def told_places(regions, other):
    """What isn't usual, as a fault has it that tells two apart."""
    usual = "the usual regions of heap and stack" if regions.limits == other.limits else "the usual regions and limits"
    return regions.told or usual


def cut(places, index, count):
    return places * index // count


def at_most(lines, number, limit, what):
    value = int(number, 0) if number[:2] == b"0x" else int(number)
    if value > limit:
        lines.fault(f"{what} above {limit}")
    return value


def values_of(lines, text, limit):
    """A name, or a list of numbers, none twice."""
    if text.isalpha():
        return text.decode()
    found = tuple(at_most(lines, number, limit, "a value") for number in text.split(b","))
    if len(set(found)) < len(found):
        lines.fault("a value twice")
    return found


def read_range(lines, kind, pattern, limit, most, form=Range):
    """A range of bytes or words, or None where the next line is none."""
    if not lines.next.startswith(kind.encode() + b" "):
        return None
    found = lines.must(pattern, f"`{kind} A..B VALUES`")
    first, last = (at_most(lines, group, limit, "a place") for group in found.groups()[:2])
    if first > last:
        lines.fault("a range that ends before it begins")
    return form(kind, first, last, values_of(lines, found[3], most))


def form_of_words(isa):
    """What words of a program are: instructions by their lengths, where these differ."""
    return Range if isa == ISAS[0] else Code


def read_files(lines):
    for name, limit in SMALL.items():
        found = lines.must(DIGEST, f"`{name} LEN SHA256`")
        if found[1] != name.encode():
            lines.fault(f"`{name} LEN SHA256` comes here")
        yield at_most(lines, found[2], limit, "a length"), found[3].decode()


def must_be_second(lines, version):
    """Rejects the next line, which a table of version 1 doesn't have, in one."""
    if version != b"sweep 2":
        lines.here(f"a line of `sweep 2` in a table of `{version.decode()}`: {shown(lines.next)}")


def read_isa(lines, version):
    """The instruction set. A table has a line on it where it isn't the usual one, and is of version 2 then."""
    if not lines.next.startswith(b"isa "):
        return ISAS[0]
    must_be_second(lines, version)
    name = lines.must(ISA, "`isa NAME`")[1].decode()
    if name not in ISAS[1:]:
        lines.fault(f"not one of {', '.join(ISAS[1:])}")
    return name


def read_limits(lines, version):
    """How many bytes one call moves, and how many are written in all. A table has a line on each that isn't the usual number."""
    moved, output = USUAL_MOVED, USUAL_OUTPUT
    if lines.next.startswith(b"most-moved "):
        must_be_second(lines, version)
        moved = int(lines.must(MOVED, "`most-moved N`")[1])
        if not 1 <= moved <= GREATEST_MOVED or moved == USUAL_MOVED:
            lines.fault("no number that has a line")
    if lines.next.startswith(b"most-output "):
        must_be_second(lines, version)
        found = lines.must(MOST, "`most-output N`")[1]
        output = None if found == b"none" else int(found)
        if output == USUAL_OUTPUT or output is not None and output > GREATEST_OUTPUT:
            lines.fault("no number that has a line")
    return moved, output


def read_regions(lines, version):
    """The regions of heap and stack, on each of which a table has a line where it isn't the usual one, and the limits of calls. The table
    is of version 2 then."""
    heap, stack = USUAL_REGIONS.heap, USUAL_REGIONS.stack
    if lines.next.startswith(b"heap-region "):
        must_be_second(lines, version)
        heap = int(lines.must(HEAP, "`heap-region BEGIN`")[1], 16)
        if not is_heap(heap) or heap == USUAL_REGIONS.heap:
            lines.fault("no region that has a line")
    if lines.next.startswith(b"stack-region "):
        must_be_second(lines, version)
        found = lines.must(STACK, "`stack-region A..B`")
        stack = int(found[1], 16), int(found[2], 16)
        if not is_stack(*stack) or stack == USUAL_REGIONS.stack:
            lines.fault("no region that has a line")
    regions = Regions(heap, stack, *read_limits(lines, version))
    if regions.meet():
        lines.fault("regions that overlap")
    return regions


def read_steps(lines, version, limit, isa, regions):
    """The steps at which the machine is altered, or None where the next line has none. A table of version 1 has none. One of version 2
    does, unless it names an instruction set or regions, or says what its runs have executed."""
    has_steps = lines.next.startswith(b"steps ")
    if version == b"sweep 2" and not has_steps and lines.next != SIDES and isa == ISAS[0] and regions == USUAL_REGIONS:
        lines.other("`steps A..B MODELS`, as in each table of `sweep 2`,")
    if not has_steps:
        return None
    must_be_second(lines, version)
    found = lines.must(STEPS, "`steps A..B MODELS`")
    first, last = (at_most(lines, group, limit, "a step") for group in found.groups()[:2])
    code = tuple(int(group, 16) for group in found.groups()[3:5]) if found[4] else None
    if first > last or code and code[0] > code[1]:
        lines.fault("a range that ends before it begins")
    models = found[3].decode()
    if models_fault(models):
        lines.fault(models_fault(models))
    return Steps(first, last, models, code, bool(found[6]), unit_of(isa))


def read_sides(lines, version, ranges):
    """Whether the table says what its runs have executed. It has edits of bytes only and is of version 2 then."""
    if lines.next != SIDES:
        return False
    must_be_second(lines, version)
    if any(ranges[1:]):
        lines.here(f"of edits of bytes only: {shown(lines.next)}")
    lines.go_on()
    return True


def read_version(lines):
    """The first line, of a version that is known."""
    if not lines.next:
        lines.other("`sweep 1`")
    if OLD.match(lines.next):
        raise BadTable(f"{lines.name}: a table in the form that `replaycheck sweep --table` wrote before: make it anew "
                       "by `replaycheck explore --table`, or by `replaycheck sweep` with --part")
    if lines.next not in VERSIONS:
        known = " and ".join(f"`{version.decode()}`" for version in VERSIONS)
        lines.here(f"an unknown version: {shown(lines.next)}; this reads {known}" if re.fullmatch(rb"sweep [0-9]+", lines.next) else
                   f"no table of a sweep: it begins with {shown(lines.next)}")
    lines.go_on()
    return lines.was


def read_head(lines):
    """The head that the next lines are."""
    taken = lines.taken = []
    version = read_version(lines)
    isa = read_isa(lines, version)
    regions = read_regions(lines, version)
    files = tuple(read_files(lines))
    ranges: List[Union[Range, Steps, None]] = [read_range(lines, "bytes", BYTES, LONGEST_INPUT - 1, 255),
                                               read_range(lines, "words", WORDS, 0xFFFFFFFF, 0xFFFFFFFF,
                                                          form_of_words(isa)),
                                               read_steps(lines, version, FURTHEST_STEP, isa, regions)]
    has_sides = read_sides(lines, version, ranges)
    step = at_most(lines, lines.must(STEP, "`step N`")[1], FURTHEST_STEP, "a step")
    has_output = lines.must(OUTPUT, "`output yes` or `output no`")[1] == b"yes"
    before = tuple(taken)
    part = lines.must(PART, "`part I/N`")
    index, count = (at_most(lines, group, MOST_PARTS, "a part") for group in part.groups())
    if not 1 <= index <= count:
        lines.fault("no part")
    if not any(ranges):
        lines.fault("neither bytes nor words nor steps in the head")
    if ranges[2] and ranges[2].last >= step:
        lines.fault(f"steps up to {ranges[2].last}, and runs that are compared at step {step}")
    lines.taken = None
    return Head(before, isa, regions, files, tuple(one_range for one_range in ranges if one_range), has_sides, step, has_output,
                (index, count))
