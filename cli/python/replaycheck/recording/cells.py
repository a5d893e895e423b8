"""The cells of a recording's pictures: which column and row each edit is in, and what these are called."""
from __future__ import annotations

from dataclasses import dataclass, field
from itertools import takewhile
from typing import Dict, List, Optional, Tuple

from replaycheck.exploring.panels import EDGE_NAMES
from replaycheck.exploring.panels import Panel as Drawn
from replaycheck.exploring.ranges import BITS, WORD, Code
from replaycheck.exploring.steps import BIT, LAST_REGISTER, SIZES, bit_of, instruction_of
from replaycheck.guest.rv32 import NAMES

OF_REGISTERS = ("registers", "zero", "ones")
# What the edits of a picture are, by the kind of their places, and at steps by the fault model.
CAPTIONS = {
    "bytes": "each byte of the input", "words": "each word of the program", "instructions": "each instruction of the program",
    "skip": "the instruction of a step left out", "registers": "a bit of a register inverted at a step: 32 edits in a cell",
    "pc": "a bit of pc inverted at a step", "turned": "a bit of the instruction inverted for one step",
    "memory": "a bit of a byte inverted at a step: 8 edits in a cell", "zero": "a register set to 0 at a step",
    "ones": "a register set to all ones at a step", "pairs": "two instructions left out: a column is the first step, a row the second",
}


@dataclass
class Panel:
    """A picture: what its edits are, the names of its columns, and what was there before the edits, if that is known: a byte, or a text;
    and the names of its rows. Rows that come with the edits have their names by numbers in `met`."""

    caption: str
    is_of_bytes: bool = False
    columns: List[str] = field(default_factory=list)
    addresses: List[Optional[int]] = field(default_factory=list)
    before: List[object] = field(default_factory=list)
    rows: List[str] = field(default_factory=list)
    met: Dict[int, str] = field(default_factory=dict)

    def column(self, name: str, address: Optional[int] = None, before: object = None) -> int:
        """The number of the column of a place, the last one or another one."""
        if not self.columns or self.columns[-1] != name:
            self.columns.append(name)
            self.addresses.append(address)
            self.before.append(before)
        return len(self.columns) - 1


@dataclass
class Cells:
    """The pictures, and of each edit, in the order of the places, its picture, column, row and form. A form is the line of a session with
    `{0}` for the column's name and `{1}` for the step after it."""

    panels: Dict[str, Panel] = field(default_factory=dict)
    panel: List[int] = field(default_factory=list)
    column: List[int] = field(default_factory=list)
    row: List[int] = field(default_factory=list)
    form: List[int] = field(default_factory=list)
    forms: Dict[str, int] = field(default_factory=dict)

    def panel_of(self, kind: str, **how) -> Panel:
        return self.panels.setdefault(kind, Panel(CAPTIONS[kind], **how))

    def put(self, kind: str, column: int, row: int, place, value) -> None:
        self.panel.append(list(self.panels).index(kind))
        self.column.append(column)
        self.row.append(row)
        form = form_of(place.range.line(place.at, value), place.range.named(place.at))
        self.form.append(self.forms.setdefault(form, len(self.forms)))

    def add(self, place, request, address: Optional[int]) -> None:
        """Adds the edits of a place; `address` is that of a step's instruction, if it is known."""
        if place.range.kind == "steps":
            self.add_step(place, address)
            return
        one_range = place.range
        kind = "instructions" if isinstance(one_range, Code) else one_range.kind
        panel = self.panel_of(kind, is_of_bytes=kind == "bytes", rows=row_names(one_range))
        before = request.before(one_range, place.at)
        if kind != "bytes":
            address, before = place.at, None if before is None else one_range.named(before)
        column = panel.column(one_range.named(place.at), address, before)
        for row, value in zip(Drawn(one_range, 0, []).rows_of(place), place.edits):
            self.put(kind, column, row, place, value)

    def add_step(self, place, address: Optional[int]) -> None:
        """Adds the edits of a step: those of each model, then those of memory, then pairs."""
        edits, begin, name = list(place.edits), 0, str(place.at)
        bits = instruction_of(edits)[1]
        for model in (model for model in place.range.models if model in SIZES):
            size = bits if model == "words" else SIZES[model]
            kind = "turned" if model == "words" else model
            if size:
                column = self.panel_of(kind, rows=rows_of_model(model)).column(name, address)
                for at, edit in enumerate(edits[begin:begin + size]):
                    self.put(kind, column, at // BITS_A_ROW.get(model, 1), place, edit)
            begin += size
        rest = edits[begin:]
        turned = list(takewhile(BIT.fullmatch, rest))
        for kind, some in (("memory", turned), ("pairs", rest[len(turned):])):
            for edit in some:
                row = bit_of(edit)[0] if kind == "memory" else int(edit.rpartition(" ")[2])
                panel = self.panel_of(kind)
                panel.met[row] = f"0x{row:08x}" if kind == "memory" else str(row)
                self.put(kind, panel.column(name, address), row, place, edit)

    def end(self) -> None:
        """Gives the rows that came with the edits their numbers, in order."""
        for index, panel in enumerate(self.panels.values()):
            if panel.met:
                order = {row: number for number, row in enumerate(sorted(panel.met))}
                panel.rows = [panel.met[row] for row in order]
                self.row = [order[row] if at == index else row for at, row in zip(self.panel, self.row)]


BITS_A_ROW = {"registers": 32}


def rows_of_model(model: str) -> List[str]:
    if model in OF_REGISTERS:
        return [NAMES[register] for register in range(1, LAST_REGISTER + 1)]
    return ["left out"] if model == "skip" else [f"bit {bit}" for bit in range(SIZES[model])]


def row_names(one_range) -> List[str]:
    """The names of the rows of a range of bytes or words."""
    if one_range.values == "all":
        return [f"{value:02x}" for value in range(1 << BITS)]
    if one_range.values == "flips":
        return [f"bit {bit}" for bit in range(BITS if one_range.kind == "bytes" else BITS * WORD)]
    if one_range.values == "edges":
        return list(EDGE_NAMES)
    return ["left out"] if one_range.values == "skip" else [one_range.named(value) for value in one_range.values]


def form_of(line: str, name: str) -> str:
    """The form of the line of an edit at a place with this name."""
    after = str(int(name) + 1) if name.isdigit() else ""
    made: List[str] = []
    for one in line.split("; "):
        word, at, *rest = one.split(" ")
        at = "{0}" if at == name else "{1}" if at == after and made else at
        made.append(" ".join([word, at, *rest]))
    return "; ".join(made)


def runs_of(numbers) -> List[int]:
    """Numbers as runs: of each run its first number, how many there are, and by how much one is greater than the one before, 0 or 1."""
    runs: List[int] = []
    for number in numbers:
        if runs:
            first, count, more = runs[-3:]
            if count == 1 and number - first in (0, 1):
                runs[-2:] = 2, number - first
                continue
            if number == first + more * count:
                runs[-2] += 1
                continue
        runs += (number, 1, 0)
    return runs


def steps_of(places: list) -> List[Tuple[int, object]]:
    """The steps among places."""
    return [place.at for place in places if place.range.kind == "steps"]
