"""The panels of a picture: bytes, or words, as columns, and values as rows. Where there are more places than columns,
several share one, and the worst outcome of them is seen."""
import bisect
from dataclasses import dataclass

from .tables import EDGES, value_before

MOST_COLUMNS, WIDTH, WIDEST = 320, 740, 24
EDGE_NAMES = ("0", "1", "0x7f", "0x80", "0xff", "one more", "one less")


@dataclass
class Cell:
    """The worst outcome of a column and a row, how bad it is, and the first edit that leads to it."""

    badness: int
    outcome: int
    at: int
    value: int


class Panel:
    """The places of a range that the tables have. `begin` is the ordinal of its first place."""

    def __init__(self, one_range, begin, intervals):
        self.range, self.columns_at, self.numbers = one_range, [], []
        self.count = 0
        for low, high in intervals:
            low, high = (one_range.number(min(max(at - begin, 0), one_range.size)) for at in (low, high))
            if low < high:
                self.columns_at.append(self.count)
                self.numbers.append(low)
                self.count += high - low
        self.begin = begin
        self.bins = min(self.count, MOST_COLUMNS)
        self.cells = {}
        self.rows = self.row_count()
        self.wide = max(3, min(WIDEST, WIDTH // max(1, self.bins)))
        self.tall = 2 if self.rows > 32 else 14 if self.rows > 1 else 24

    @property
    def is_whole(self):
        return len(self.columns_at) == 1

    def place(self, column):
        """The place of a column."""
        index = bisect.bisect_right(self.columns_at, column) - 1
        return self.range.place(self.range.ordinal(self.numbers[index] + column - self.columns_at[index]))

    def bin(self, ordinal):
        number = self.range.number(ordinal - self.begin)
        index = bisect.bisect_right(self.numbers, number) - 1
        return (self.columns_at[index] + number - self.numbers[index]) * self.bins // self.count

    def places_of(self, index):
        """The first and the last place of a bin."""
        first = -(-index * self.count // self.bins)
        return self.place(first), self.place(max(first, -(-(index + 1) * self.count // self.bins) - 1))

    # ---- rows

    def row_count(self):
        return 256 if self.range.values == "all" else self.range.most

    def rows_of(self, place):
        """The row of each edit of a place, in order."""
        values = self.range.values
        if values == "all":
            return place.values
        if values == "skip":
            return [0] * len(place.values)
        if not isinstance(values, str):
            listed = {value: row for row, value in enumerate(values)}
            return [listed[value] for value in place.values]
        was = value_before(place)
        if values == "flips":
            return [(value ^ was).bit_length() - 1 for value in place.values]
        named = {value: row for row, value in reversed(list(enumerate((*EDGES, (was + 1) % 256, (was - 1) % 256))))}
        return [named[value] for value in place.values]

    def row_names(self):
        """Rows that have a name, each with it."""
        values = self.range.values
        if values == "all":
            return [(row, f"0x{row:02x}") for row in range(0, 256, 16)]
        if values == "flips":
            return [(row, f"bit {row}") for row in range(self.rows)]
        if isinstance(values, str):
            return list(enumerate(EDGE_NAMES)) if values == "edges" else [(0, "left out")]
        every = 1 if self.rows <= 32 else 16
        return [(row, self.range.named(value)) for row, value in enumerate(values) if row % every == 0]

    # ---- cells

    def add(self, place, badness):
        """Takes the edits of a place."""
        column = self.cells.setdefault(self.bin(place.ordinal), {})
        for row, (value, outcome) in zip(self.rows_of(place), place.edits.items()):
            bad, cell = badness(outcome), column.get(row)
            if cell is None or (bad, -outcome) > (cell.badness, -cell.outcome):
                column[row] = Cell(bad, outcome, place.at, value)

    def runs(self):
        """Neighbours of a column that have one outcome: the column, the first and the last row."""
        for column, rows in sorted(self.cells.items()):
            first = last = None
            for row in sorted(rows):
                if last is None or row != last + 1 or rows[row].outcome != rows[first].outcome:
                    if first is not None:
                        yield column, first, last
                    first = row
                last = row
            if first is not None:
                yield column, first, last

    def ticks(self):
        """Columns below which their place is told, each with it."""
        room = 42 if self.range.kind == "bytes" else 84
        per = self.count / max(1, self.bins) / self.wide  # places in a pixel
        nice = next((k * 10 ** n for n in range(8) for k in (1, 2, 5) if k * 10 ** n >= room * per), 1)
        last = None
        for index in range(self.bins):
            at = self.places_of(index)[0]
            fits = last is None or (index - last) * self.wide >= room
            is_nice = not self.is_whole or self.range.kind == "words" or self.bins < self.count or at % nice == 0
            if fits and (is_nice or last is None):
                last = index
                yield index, self.range.named(at)


def panels_of(head, sources):
    """A panel for each range of bytes or words of a sweep."""
    intervals = [source.head.interval for source in sources]
    if None in intervals:  # the parts of a whole, which aren't counted
        intervals = [(0, head.places)]
    begin, found = 0, []
    for one_range in head.ranges:
        if one_range.kind != "steps":
            found.append(Panel(one_range, begin, intervals))
        begin += one_range.size
    return found
