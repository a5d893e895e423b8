"""The panels of a picture of steps: registers, bits, executions of instructions, and pairs of steps. Where there are more columns or rows
than can be seen, several share one, and the worst outcome of them is seen."""
from array import array
from dataclasses import dataclass
from itertools import takewhile

from replaycheck.guest.rv32 import NAMES

from .steps import BIT, BYTE_BITS, LAST_REGISTER, SIZES, bit_of, byte_edits, edits_of, instruction_of

MOST_COLUMNS, MOST_ROWS, WIDTH, WIDEST = 320, 160, 960, 24
MANY = 40  # so many rows are tall enough for a text
OF_REGISTERS = ("registers", "zero", "ones")
CAPTIONS = {
    "registers": "registers: the worst of the 32 bits, each inverted by itself",
    "pc": "bits of pc, inverted",
    "words": "bits of the instruction, inverted for this step only",
    "zero": "registers, set to 0",
    "ones": "registers, set to all ones",
}


@dataclass
class Cell:
    """The worst outcome of a column and a row, how bad it is, and the edit that leads to it."""

    rank: int
    outcome: int
    edit: object


def shared(index, count, bins):
    return index * bins // count


def first_of(bin_, count, bins):
    """The least index of a bin."""
    return -(-bin_ * count // bins)


class Grid:
    """Cells by rows and columns. `columns` and `rows` are the numbers of those that are drawn, `of_columns` and `of_rows` the numbers of
    those that share them."""

    caption, axis, row_word = "", "step", ""

    def __init__(self):
        self.cells = {}
        self.of_columns = self.of_rows = 0

    def settle(self):
        """Chooses sizes, when all edits are there."""
        self.columns, self.rows = min(MOST_COLUMNS, self.of_columns), min(MOST_ROWS, self.of_rows)
        self.wide = max(3, min(WIDEST, WIDTH // max(1, self.columns)))
        self.tall = 14 if self.rows <= MANY else max(3, 480 // self.rows)

    def put(self, column, row, rank, outcome, edit):
        """Takes an edit. The first of those that are equally bad stays."""
        cells = self.cells.setdefault(shared(row, self.of_rows, self.rows), {})
        index = shared(column, self.of_columns, self.columns)
        if index not in cells or rank > cells[index].rank:
            cells[index] = Cell(rank, outcome, edit)

    def runs(self, kind):
        """Neighbours of a row that have one kind of outcome: the row, the first and the last column."""
        for row, cells in sorted(self.cells.items()):
            first = last = None
            for column in sorted(cells):
                if last is None or column != last + 1 or kind(cells[column].outcome) != kind(cells[first].outcome):
                    if first is not None:
                        yield row, first, last
                    first = column
                last = column
            yield row, first, last

    def worst(self, row, first, last):
        """The worst cell of a run, the first of equals."""
        return max((self.cells[row][column] for column in range(first, last + 1)), key=lambda cell: cell.rank)

    def span(self, values, first, last, count, bins):
        """The first and the last of the values that share some bins."""
        return values[first_of(first, count, bins)], values[max(first_of(first, count, bins), first_of(last + 1, count, bins) - 1)]

    # ---- axes; `what` names places for people

    def row_names(self):
        return ()

    def texts(self, _):
        """What is told on the right of rows."""
        return ()

    def every(self, values, count, bins, size, room):
        """Bins below or beside which their first value is told: as many as have room."""
        last = None
        for index in range(bins):
            if last is None or (index - last) * size >= room:
                last = index
                yield index, str(values[first_of(index, count, bins)])


class OverSteps(Grid):
    """A column for each step that has edits."""

    def __init__(self):
        super().__init__()
        self.steps = array("I")

    def ticks(self):
        return self.every(self.steps, self.of_columns, self.columns, self.wide, 50)

    def bands(self):
        """The step that each column begins with."""
        return [self.steps[first_of(column, self.of_columns, self.columns)] for column in range(self.columns)]

    def places(self, first, last):
        return ends(*self.span(self.steps, first, last, self.of_columns, self.columns), "step")


def function_of(where):
    """The function of a place: `verify+0x24 (boot.c:71), ..` is in `verify`."""
    return where.partition(" ")[0].partition(",")[0].partition("+0x")[0]


def runs_of(items):
    """The first and the last index of each run of equal items, and the item."""
    first = 0
    for index in range(1, len(items) + 1):
        if index == len(items) or items[index] != items[first]:
            yield first, index - 1, items[first]
            first = index


def ends(low, high, what):
    return f"{what} {low}" if low == high else f"{what}s {low} to {high}"


class OfModel(OverSteps):
    """A row for each register or bit that a model has."""

    def __init__(self, model):
        super().__init__()
        self.model, self.caption = model, CAPTIONS[model]
        self.of_rows = LAST_REGISTER if model in OF_REGISTERS else SIZES[model]
        self.each = SIZES[model] // self.of_rows  # edits of a row
        self.outcomes, self.which, self.addresses = array("I"), array("B"), {}
        self.heights = array("B")  # of each column: an instruction of 16 bits has 16 rows

    def add(self, step, outcomes, rank, address):
        """Takes the edits of a step: of each row the worst."""
        self.steps.append(step)
        if address:
            self.addresses[step] = address
        self.heights.append(len(outcomes) // self.each)
        for begin in range(0, len(outcomes), self.each):
            edits = outcomes[begin:begin + self.each]
            worst = 0 if len(set(edits)) == 1 else max(range(len(edits)), key=lambda index: rank(edits[index]))
            self.outcomes.append(edits[worst])
            self.which.append(worst)

    def finish(self, rank, _):
        self.of_columns, self.of_rows, at = len(self.steps), max(self.heights), 0
        self.settle()
        for column, height in enumerate(self.heights):
            for row in range(height):
                self.put(column, row, rank(self.outcomes[at]), self.outcomes[at], (self.steps[column], row, self.which[at]))
                at += 1

    def edit(self, cell):
        step, row, which = cell.edit
        return list(edits_of(self.model, step, self.addresses.get(step)))[row * self.each + which]

    def row_names(self):
        return [(row, self.row_name(row)) for row in range(self.rows)]

    def row_name(self, row):
        return NAMES[row + 1] if self.model in OF_REGISTERS else f"bit {row}"

    def where(self, row, first, last):
        return f"{self.places(first, last)}, {self.row_name(row)}"


class Skips(OverSteps):
    """A column for each execution of an instruction, and a row for each address; or one row for the steps where addresses aren't known."""

    row_word = "address"

    def __init__(self):
        super().__init__()
        self.outcomes, self.addresses = array("I"), []

    def add(self, step, outcomes, *_):
        self.steps.append(step)
        self.outcomes.append(outcomes[0])

    def finish(self, rank, instructions):
        found = instructions.addresses_of(self.steps) if instructions else [None] * len(self.steps)
        self.is_known = bool(found) and None not in found
        self.addresses = sorted(set(found)) if self.is_known else [0]
        rows = {at: row for row, at in enumerate(self.addresses)} if self.is_known else {None: 0}
        executed, columns = [0] * len(rows), []
        for address in found:
            row = rows[address if self.is_known else None]
            columns.append((executed[row], row))
            executed[row] += 1
        self.of_rows, self.of_columns = len(rows), max(executed)
        self.settle()
        self.caption = ("skips: a column for each execution of an instruction, a row for each address" if self.is_known else
                        "skips: a column for each step")
        self.axis = "execution" if self.is_known else "step"
        for (column, row), step, outcome in zip(columns, self.steps, self.outcomes):
            self.put(column, row, rank(outcome), outcome, step)

    @staticmethod
    def edit(cell):
        return f"skip {cell.edit}"

    def ticks(self):
        values = range(1, self.of_columns + 1) if self.is_known else self.steps
        return self.every(values, self.of_columns, self.columns, self.wide, 50)

    def bands(self):
        return []

    def row_names(self):
        if not self.is_known:
            return [(0, "left out")]
        return self.every([f"0x{address:08x}" for address in self.addresses], self.of_rows, self.rows, self.tall, 12)

    def texts(self, instructions):
        """The instruction of each row, or where there isn't room for each the functions, the longest first."""
        if not self.is_known:
            return []
        wheres = [instructions.where(self.addresses[first_of(row, self.of_rows, self.rows)]) for row in range(self.rows)]
        if self.rows <= MANY:
            return list(enumerate(wheres))
        found = {}
        for first, last, name in sorted(runs_of([function_of(where) for where in wheres]), key=lambda run: run[0] - run[1]):
            row = (first + last) // 2
            if all(abs(row - other) * self.tall >= 11 for other in found):
                found[row] = name
        return found.items()

    def where(self, row, first, last):
        if not self.is_known:
            return self.places(first, last)
        low, high = self.span(self.addresses, row, row, self.of_rows, self.rows)
        count = ends(*self.span(range(1, self.of_columns + 1), first, last, self.of_columns, self.columns), "execution")
        return f"{count} of 0x{low:08x}" + (f" to 0x{high:08x}" if high > low else "")


class Bytes(OverSteps):
    """A column for each step, and a row for each byte that some step's run reads later; white where it doesn't."""

    caption = "memory: a row for each byte that is read later, the worst of its 8 bits, each inverted by itself"
    row_word = "byte"

    def __init__(self):
        super().__init__()
        self.columns_at, self.addresses, self.outcomes, self.bits = array("I"), array("I"), array("I"), array("B")

    def add(self, step, edits, outcomes, rank):
        """Takes the edits of a step: of each byte the worst."""
        for begin in range(0, len(edits), BYTE_BITS):
            found = outcomes[begin:begin + BYTE_BITS]
            worst = max(range(len(found)), key=lambda index: rank(found[index]))
            self.columns_at.append(len(self.steps))
            self.addresses.append(bit_of(edits[begin])[0])
            self.outcomes.append(found[worst])
            self.bits.append(worst)
        self.steps.append(step)

    def finish(self, rank, _):
        self.rows_at = sorted(set(self.addresses))
        self.of_rows, self.of_columns = len(self.rows_at), len(self.steps)
        self.settle()
        rows = {at: row for row, at in enumerate(self.rows_at)}
        for column, address, outcome, bit in zip(self.columns_at, self.addresses, self.outcomes, self.bits):
            self.put(column, rows[address], rank(outcome), outcome, (self.steps[column], address, bit))

    @staticmethod
    def edit(cell):
        step, address, bit = cell.edit
        return list(byte_edits(step, address))[bit]

    def row_names(self):
        return self.every([f"0x{address:08x}" for address in self.rows_at], self.of_rows, self.rows, self.tall, 12)

    def where(self, row, first, last):
        low, high = self.span(self.rows_at, row, row, self.of_rows, self.rows)
        return f"{self.places(first, last)}, 0x{low:08x}" + (f" to 0x{high:08x}" if high > low else "")


class Pairs(Grid):
    """A column for the step of the first skip, a row for that of the second."""

    caption, axis = "pairs of skips: a column for the step of the first, a row for that of the second", "first step"
    row_word = "second step"

    def __init__(self):
        super().__init__()
        self.firsts, self.seconds, self.outcomes = array("I"), array("I"), array("I")

    def add(self, first, second, outcome):
        self.firsts.append(first)
        self.seconds.append(second)
        self.outcomes.append(outcome)

    def finish(self, rank, _):
        self.columns_at, self.rows_at = sorted(set(self.firsts)), sorted(set(self.seconds))
        self.of_columns, self.of_rows = len(self.columns_at), len(self.rows_at)
        self.settle()
        columns, rows = ({step: index for index, step in enumerate(them)} for them in (self.columns_at, self.rows_at))
        for first, second, outcome in zip(self.firsts, self.seconds, self.outcomes):
            self.put(columns[first], rows[second], rank(outcome), outcome, (first, second))

    @staticmethod
    def edit(cell):
        return "skip %d; skip %d" % cell.edit

    def ticks(self):
        return self.every(self.columns_at, self.of_columns, self.columns, self.wide, 50)

    def bands(self):
        return [self.columns_at[first_of(column, self.of_columns, self.columns)] for column in range(self.columns)]

    def row_names(self):
        return self.every(self.rows_at, self.of_rows, self.rows, self.tall, 12)

    def where(self, row, first, last):
        low = ends(*self.span(self.columns_at, first, last, self.of_columns, self.columns), "first step")
        return f"{low}, {ends(*self.span(self.rows_at, row, row, self.of_rows, self.rows), 'second step')}"


class StepPanels:
    """The panels of the steps of a sweep: one for each model, and one for pairs."""

    def __init__(self, steps):
        self.range = steps
        self.models = {model: Skips() if model == "skip" else OfModel(model) for model in steps.models if model in SIZES}
        self.bytes, self.pairs = Bytes(), Pairs()

    def add(self, place, rank):
        """Takes the edits of a place."""
        texts, outcomes, begin = list(place.edits), list(place.edits.values()), 0
        address, bits = instruction_of(texts) if "words" in self.models else (None, 0)
        for model, panel in self.models.items():
            size = bits if model == "words" else SIZES[model]
            if size:
                panel.add(place.at, outcomes[begin:begin + size], rank, address)
            begin += size
        turned = list(takewhile(BIT.fullmatch, texts[begin:]))
        if turned:
            self.bytes.add(place.at, turned, outcomes[begin:begin + len(turned)], rank)
        begin += len(turned)
        for text, outcome in zip(texts[begin:], outcomes[begin:]):
            self.pairs.add(place.at, int(text.rpartition(" ")[2]), outcome)

    def grids(self, rank, instructions):
        """The panels that have edits, when all are there."""
        found = [panel for panel in (*self.models.values(), self.bytes) if panel.steps] + [self.pairs] * bool(self.pairs.firsts)
        for panel in found:
            panel.finish(rank, instructions)
        return found
