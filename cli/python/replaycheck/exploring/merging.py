"""The tables of the parts of one sweep, in order, as one table: outcomes are numbered anew by their texts."""
import os
import re
from dataclasses import dataclass
from typing import Callable, Dict, List, Optional, Tuple

from replaycheck.guest.lines import BadTable, Lines, shown_name

from .heads import Head, read_head, told_places
from .ranges import Range
from .tables import Table

MOST_SPOOLED = 1 << 34
NEXT_TABLE = re.compile(rb"\n(?=sweep [0-9])")


@dataclass
class Source:
    """Where a table stands: a file, an offset and how many lines come before, and its head."""

    path: str
    name: str
    offset: int
    number: int
    head: Head

    def open(self):
        file = open(self.path, "rb")
        file.seek(self.offset)
        return Table(file, self.name, self.number)

    def __str__(self):
        return f"{shown_name(self.name)} (part {self.head.part[0]}/{self.head.part[1]})"


def table_starts(file):
    """Where tables begin in a file, one after another, and how many lines come before each."""
    yield 0, 0
    text, base, number = b"", 0, 0
    while True:
        content = file.read(1 << 20)
        if not content:
            return
        text += content
        counted = 0  # `number` is how many newlines come before this place of the text
        for found in NEXT_TABLE.finditer(text):
            number, counted = number + text.count(b"\n", counted, found.end()), found.end()
            yield base + counted, number
        done = max(0, len(text) - 7)  # what begins after it isn't whole
        number += text.count(b"\n", counted, done)
        base, text = base + done, text[done:]


def sources_in(path, name):
    """The tables that stand in a file."""
    with open(path, "rb") as file, open(path, "rb") as ahead:
        for offset, number in table_starts(ahead):
            file.seek(offset)
            yield Source(path, name, offset, number, read_head(Lines(file, name, number)))


def spooled(file, name, room):
    """A pipe's content as a file of a folder. It must begin as a table does, so that not just anything is kept."""
    path = os.path.join(room, f"spooled-{len(os.listdir(room))}")
    first, size = file.readline(1 << 20), 0
    read_head(Lines(Ahead(file, first, path), name))
    with open(path, "ab") as out:
        while True:
            content = file.read(1 << 20)
            size += len(content)
            if size > MOST_SPOOLED:
                raise BadTable(f"{shown_name(name)}: more than {MOST_SPOOLED} bytes; give them as a file")
            if not content:
                return path
            out.write(content)


class Ahead:
    """A file of which the first line was read already. What is read of it is kept in another one."""

    def __init__(self, file, first, path):
        self.file, self.first, self.path = file, first, path

    def readline(self, size):
        line, self.first = (self.first, None) if self.first is not None else (self.file.readline(size), None)
        with open(self.path, "ab") as out:
            out.write(line)
        return line


def in_order(sources, sample: Optional[Tuple[List[int], int]] = None):
    """Tables by their places. All are parts of one sweep, and together they are the whole of it, or just the parts that
    are a sample: their numbers, of how many."""
    sources = sorted(sources, key=lambda table: (table.head.interval or (), table.head.part))
    first = sources[0]
    for source in sources[1:]:
        if source.head.same() != first.head.same():
            raise BadTable(f"{source} is of another sweep than {first}: {difference(source.head, first.head)}")
    if sample is not None:
        return expected(sources, [(index, sample[1]) for index in sample[0]])
    check_numbers(sources)
    if not first.head.is_counted:
        return sources
    end, before = 0, None
    for source in sources:
        low, high = source.head.interval
        if low > end:
            raise BadTable(f"a gap: no table has the places {end} to {low - 1}, before {source}")
        if low < end and high > low:
            raise BadTable(f"an overlap: the places from {low} on are in {before} and in {source}")
        end, before = max(end, high), source if high > low else before
    if end < first.head.places:
        raise BadTable(f"a gap: no table has the places {end} to {first.head.places - 1}, after {before}")
    return sources


def check_numbers(sources):
    """Parts of one cut are there each once. Where the places of the sweep aren't counted, there may be no other cut."""
    counts = {source.head.part[1] for source in sources}
    if len(counts) > 1:
        if not sources[0].head.is_counted:
            cuts = " and ".join(map(str, sorted(counts)))
            raise BadTable(f"parts of cuts into {cuts}: which instructions are in each is known only with the program's FILE")
        return
    count, met = counts.pop(), {}
    for source in sources:
        if source.head.part[0] in met:
            raise BadTable(f"an overlap: part {source.head.part[0]}/{count} is in {met[source.head.part[0]]} and in {source}")
        met[source.head.part[0]] = source
    missing = [number for number in range(1, count + 1) if number not in met][:9] if len(met) < count else []
    if missing:
        more = count - len(met) - len(missing)
        told = ", ".join(f"{number}/{count}" for number in missing)
        raise BadTable(f"missing: part {told}{f' and {more} more' if more else ''}")


def expected(sources, parts):
    """The tables, which must be those of these parts, each once."""
    came = [source.head.part for source in sources]
    if came != parts:
        wrong = sorted(set(parts) ^ set(came)) or came
        raise BadTable(f"not the parts of the sample: part {wrong[0][0]}/{wrong[0][1]}")
    return sources


def difference(one, other):
    """What is not the same in two heads."""
    if one.isa != other.isa:
        return f"--isa {one.isa}, not {other.isa}"
    if one.regions != other.regions:
        return f"{told_places(one.regions, other.regions)}, not {told_places(other.regions, one.regions)}"
    for name, left, right in zip(("program", "input", "supp"), one.files, other.files):
        if left != right:
            return (f"another {name}, {left[0]} bytes with the digest {left[1][:16]}.., not {right[0]} with "
                    f"{right[1][:16]}..")
    if one.has_sides != other.has_sides:
        return f"{'' if one.has_sides else 'without '}sides, not {'without ' if one.has_sides else ''}sides"
    names = [(head.ranges, head.step, head.has_output) for head in (one, other)]
    for what, left, right in zip(("", "step ", "output "), *names):
        if left != right:
            told = [" and ".join(map(str, value)) if isinstance(value, tuple) else value for value in (left, right)]
            return f"{what}{told[0]}, not {what}{told[1]}"
    return "another head"


class Merged:
    """Tables that are read as one. `outcomes` and `tallies` are those of the whole, `firsts` the first edit of each:
    the range, the place, the value and which edit of all that is; `sides` are the digits of the whole by the addresses of lines."""

    def __init__(self, sources: List[Source]):
        self.sources, self.head = sources, sources[0].head
        self.outcomes: List[bytes] = []
        self.numbers: Dict[bytes, int] = {}
        self.tallies: List[int] = []
        self.firsts: Dict[int, Tuple[Range, int, int, int]] = {}
        self.edits = self.steps = 0
        self.sides: Dict[int, bytes] = {}

    def number(self, text):
        if text not in self.numbers:
            self.numbers[text] = len(self.outcomes)
            self.outcomes.append(text)
            self.tallies.append(0)
        return self.numbers[text]

    def places(self, write: Optional[Callable] = None):
        """The places of all tables, each with the numbers of the whole. `write` takes the lines of the merged table."""
        write, last = write or (lambda _: None), -1
        for source in self.sources:
            table = source.open()
            with table.lines.file:
                if source.head != table.head:
                    raise BadTable(f"{source}: it was changed while it was read")
                table.head = source.head
                for place in self.places_of(table, source, write, last):
                    last = place.last_ordinal
                    yield place
        self.write_end(write)

    def places_of(self, table, source, write, last):
        if not self.outcomes:
            self.number(table.outcomes[0])
            write(b"\n".join([*self.head.lines, b"part 1/1", b"outcome 0", self.outcomes[0], b"unedited 0", b""]))
        elif table.outcomes[0] != self.outcomes[0]:
            raise BadTable(f"{source}: its unedited run is another one than in {self.sources[0]}")
        of_table = {0: 0}
        for place in table.places(last, source is self.sources[-1]):
            for value, old in place.edits.items():
                place.edits[value] = self.add(place, value, old, of_table, table, write)
            yield place
        self.steps += table.steps
        for at, digits in table.sides.items():
            self.sides[at] = either(self.sides.get(at, digits), digits, source)

    def add(self, place, value, old, of_table, table, write):
        """Counts an edit. Gives the number of its outcome."""
        count = len(self.outcomes)
        number = of_table.get(old)
        if number is None:
            number = of_table[old] = self.number(table.outcomes[old])
            if number == count:
                write(b"outcome %d\n%b\n" % (number, self.outcomes[number]))
        if not self.tallies[number]:
            self.firsts[number] = place.range, place.at, value, self.edits
        self.tallies[number] += 1
        self.edits += 1
        write(b"%b %d\n" % (place.range.line(place.at, value).encode(), number))
        return number

    def write_end(self, write):
        for number, tally in enumerate(self.tallies):
            write(b"tally %d %d\n" % (number, tally))
        for at, digits in sorted(self.sides.items()):
            write(b"sides 0x%08x %b\n" % (at, digits))
        write(b"end %d %d %d\n" % (self.edits, len(self.outcomes), self.steps))


def either(one: bytes, other: bytes, source: Source) -> bytes:
    """The digits of what one of two tables says. Digits are characters that differ only in their two lowest bits."""
    if len(one) != len(other):
        raise BadTable(f"{source}: lines of sides end elsewhere than in the other parts")
    return (int.from_bytes(one, "big") | int.from_bytes(other, "big")).to_bytes(len(one), "big")
