"""The map of a link, which GNU ld writes with `-Wl,-Map=FILE`: where it has put what."""
from __future__ import annotations

import re
from dataclasses import dataclass, field
from typing import Dict, List, Tuple

from replaycheck.endings import Fault, naming

FIRST, LAST = "LOAD ", "OUTPUT("  # the lines between which memory is described
NUMBER = r"0x([0-9a-f]+)"
# A section of the program: its name, and where it is, which comes in the next line if the name is long.
OUTPUT = re.compile(rf"(\.?[\w/][^\s(]*)(?:\s+{NUMBER}\s+{NUMBER}.*)?$")
OUTPUT_PLACE = re.compile(rf"\s+{NUMBER}\s+{NUMBER}(?:\s+load address .*)?$")
# A statement of the linker script that takes sections of files, such as `*(.data .data.*)`.
PATTERN = re.compile(r" ([^\s(]+)\((.*)\)$")
# A section of a file: its name, where it is, and the file.
PIECE = re.compile(rf" ([^\s*(]\S*|COMMON)(?:\s+{NUMBER}\s+{NUMBER}\s+(\S.*))?$")
PIECE_PLACE = re.compile(rf"\s+{NUMBER}\s+{NUMBER}\s+(\S.*)$")
# A statement that moves the location counter, with where it leads; and bytes that the linker fills, for such a statement or to align.
MOVE = re.compile(rf"\s+{NUMBER}\s+\. = (.*)$")
FILL = re.compile(rf" \*fill\*\s+{NUMBER}\s+{NUMBER}")


@dataclass(frozen=True)
class Piece:
    """A section of a file: its name, where it is, how many bytes it has, and the file."""

    section: str
    address: int
    size: int
    file: str


@dataclass
class Pattern:
    """What a statement of the linker script names, the section of the program that it is in, and what it has taken."""

    files: str
    sections: Tuple[str, ...]
    output: str
    pieces: List[Piece] = field(default_factory=list)


@dataclass(frozen=True)
class Fill:
    """A range that the linker has filled: where it begins and ends, and to what a statement sets the location counter for that, such as
    `(. + 0x10)`; nothing if there is none."""

    start: int
    end: int
    moved: str

    def is_free(self, room: int) -> bool:
        """Whether it aligns what follows, or is padding of so many bytes. What else a script leaves free may be a stack or a heap."""
        return not self.moved or self.moved.startswith("ALIGN") or self.moved == f"(. + 0x{room:x})"


@dataclass
class LinkMap:
    """The sections of the program, each with its address and size; the patterns in their order; and what the linker has filled."""

    path: str
    outputs: Dict[str, Tuple[int, int]] = field(default_factory=dict)
    patterns: List[Pattern] = field(default_factory=list)
    fills: List[Fill] = field(default_factory=list)


class Reader:
    """Reads a map line by line. A name that is too long for its column has its place in the next line."""

    def __init__(self, path: str) -> None:
        self.map = LinkMap(path)
        self.output = self.waiting_output = self.waiting_piece = ""
        self.moved = 0, ""  # where the last statement that moves the location counter leads, and to what it sets it

    def take(self, line: str) -> None:
        if self.waiting_output and (place := OUTPUT_PLACE.match(line)):
            self.add_output(self.waiting_output, *place.groups())
        elif self.waiting_piece and (place := PIECE_PLACE.match(line)):
            self.add_piece(self.waiting_piece, *place.groups())
        elif found := FILL.match(line):
            start, end = int(found[1], 16), int(found[1], 16) + int(found[2], 16)
            self.map.fills.append(Fill(start, end, self.moved[1] if self.moved[0] == end else ""))
        elif found := MOVE.match(line):
            self.moved = int(found[1], 16), found[2]
        elif found := PATTERN.match(line):
            self.map.patterns.append(Pattern(found[1], tuple(re.split(r"[\s,]+", found[2].strip())), self.output))
        elif found := PIECE.match(line):
            self.waiting_output, self.waiting_piece = "", found[1]
            if found[2]:
                self.add_piece(*found.groups())
        elif found := OUTPUT.match(line):
            self.output = self.waiting_output = found[1]
            self.waiting_piece = ""
            if found[2]:
                self.add_output(*found.groups())

    def add_output(self, name: str, address: str, size: str) -> None:
        self.map.outputs.setdefault(name, (int(address, 16), int(size, 16)))
        self.waiting_output = ""

    def add_piece(self, section: str, address: str, size: str, file: str) -> None:
        self.waiting_piece = ""
        if self.map.patterns and self.map.patterns[-1].output == self.output:
            self.map.patterns[-1].pieces.append(Piece(section, int(address, 16), int(size, 16), file))


def read_map(path: str) -> LinkMap:
    """Reads the map of a link.

    # Errors

    `Fault` if it isn't one of GNU ld."""
    with naming(path), open(path, encoding="utf-8", errors="surrogateescape") as file:
        lines = file.read().split("\n")
    first = next((i for i, line in enumerate(lines) if line.startswith(FIRST)), len(lines))
    last = next((i for i in range(first, len(lines)) if lines[i].startswith(LAST)), len(lines))
    reader = Reader(path)
    for line in lines[first:last]:
        reader.take(line.rstrip())
    if not reader.map.outputs or not reader.map.patterns:
        raise Fault(f"{path}: not a map of GNU ld: link with -Wl,-Map=FILE")
    return reader.map
