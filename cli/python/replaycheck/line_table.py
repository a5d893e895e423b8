"""The line table of a program, `.debug_line` of DWARF 2 to 5: the file and the line of an instruction.

addr2line knows the calls that are inlined. But that of binutils 2.40 begins each sequence of rows of DWARF 5 with file 0, where the
standard has file 1 (section 6.2.2), and so names the file that includes the code's. It also takes the beginning of a unit's code for the
unit before it, if that one is in assembly and the linker has made it shorter than it says."""
from __future__ import annotations

import bisect
import functools
import itertools
import os
import re
from collections.abc import Iterator
from dataclasses import dataclass

from replaycheck.guest.elf import Elf, beginning, tables

LONGEST_FILE = 1 << 26
COMPRESSED, ZLIB, COMPRESSED_HEADER = 0x800, 1, 12  # the flag of a section, how its bytes begin, and before what is compressed
LONG_OFFSETS = 0xFFFFFFFF  # the length of a unit that has another one of 8 bytes after it
# The opcodes of a line program, those that begin with 0, and the bytes of these: one gives a sequence its address.
COPY, ADVANCE_PC, ADVANCE_LINE, SET_FILE, SET_COLUMN, NEGATE_STATEMENT, CONST_ADD_PC, FIXED_ADVANCE_PC = 1, 2, 3, 4, 5, 6, 8, 9
PROLOGUE_END = 10
END_SEQUENCE, SET_ADDRESS = 1, 2
BEGINNING, ENDING = bytes([0, 5, SET_ADDRESS]), bytes([0, 1, END_SEQUENCE])
LONGEST_NUMBER = 10  # bytes of a number that has seven bits a byte
FIRST_FILE = 1  # the file in which a sequence begins
PATH, FOLDER = 1, 2  # what a column of a table of files has
# The forms of a column: a text, texts elsewhere, numbers, bytes, and values of so many bytes.
TEXT, LINE_TEXT, ANY_TEXT, NUMBER, BLOCK, SIZES = 0x08, 0x1F, 0x0E, 0x0F, 0x09, {0x0B: 1, 0x05: 2, 0x06: 4, 0x07: 8, 0x1E: 16}
# What no compiler writes more of, so that a damaged file costs no more: units, files of one, bytes of a text, and rows of a sequence.
MOST_UNITS, MOST_FILES, LONGEST_TEXT, MOST_ROWS = 1 << 16, 1 << 16, 1 << 12, 1 << 22
AT_ONCE = 1 << 12  # bytes of a program that are executed before its rows are counted
NEAR = 16  # bytes from the end of a sequence to the opcode that gives the next one its address


class Malformed(Exception):
    """A unit that isn't as the standard has it."""


class Reader:
    """Reads bytes in order. At their end it raises IndexError."""

    def __init__(self, data: bytes, at=0):
        self.data, self.at = data, at

    def fixed(self, size) -> int:
        self.at += size
        if self.at > len(self.data):
            raise IndexError
        return int.from_bytes(self.data[self.at - size:self.at], "little")

    def number(self) -> int:
        """A number that has seven bits a byte."""
        begin, value, byte = self.at, 0, 128
        while byte > 127:
            if self.at - begin == LONGEST_NUMBER:
                raise Malformed
            byte = self.data[self.at]
            value |= (byte & 127) << 7 * (self.at - begin)
            self.at += 1
        return value

    def signed(self) -> int:
        begin, value = self.at, self.number()
        return value - (1 << 7 * (self.at - begin)) if self.data[self.at - 1] & 64 else value

    def text(self) -> str:
        end = self.data.find(b"\0", self.at, self.at + LONGEST_TEXT)
        if end < 0:
            raise Malformed
        found, self.at = self.data[self.at:end], end + 1
        return found.decode("utf-8", "surrogateescape")


class Sections:
    """The sections of a file that its line table is in: empty where it has none that can be read."""

    def __init__(self, path):
        try:
            with open(path, "rb") as file:
                data = file.read(LONGEST_FILE)
        except OSError:
            data = b""
        elf = None if beginning(data) or tables(data) else Elf(data)
        self.lines, self.line_texts, self.texts = (content(elf, name) if elf else b"" for name in ("line", "line_str", "str"))


def content(elf: Elf, name) -> bytes:
    """The bytes of a section of debug information, which may be compressed."""
    section = elf.section_named(f".debug_{name}") or elf.section_named(f".zdebug_{name}")
    data = elf.data[section.offset:section.offset + section.size] if section else b""
    if section and section.flags & COMPRESSED:
        return inflated(data[COMPRESSED_HEADER:]) if int.from_bytes(data[:4], "little") == ZLIB else b""
    return inflated(data[COMPRESSED_HEADER:]) if data.startswith(b"ZLIB") else data


def inflated(data) -> bytes:
    import zlib  # here, as few files need it
    try:
        return zlib.decompressobj().decompress(data, LONGEST_FILE)
    except zlib.error:
        return b""


@dataclass
class Row:
    """The path and the line of an instruction. `including` is the path of file 0, if that isn't the same as file 1, and the row is in
    file 1 only since each sequence begins there."""

    path: str
    line: int
    including: str | None = None


class Unit:
    """A unit of the line table, from `begin` to `end` in the section; its offsets have `width` bytes. `at` is where its version is, and
    `program` where its rows begin."""

    def __init__(self, sections: Sections, begin, end, at, width):
        self.sections, self.begin, self.end, self.at, self.width = sections, begin, end, at, width
        self.version = int.from_bytes(sections.lines[at:at + 2], "little")
        length = at + (4 if self.version == 5 else 2)
        self.program = length + width + int.from_bytes(sections.lines[length:length + width], "little")

    @functools.cached_property
    def data(self) -> bytes:
        return self.sections.lines[self.begin:self.end]

    @functools.cached_property
    def has_header(self) -> bool:
        """Reads the header. Returns whether it could be read."""
        try:
            self.read_header(Reader(self.data, self.at - self.begin))
            return True
        except (Malformed, IndexError):
            return False

    def read_header(self, reader):
        reader.fixed(2)
        if not 2 <= self.version <= 5 or self.version == 5 and reader.fixed(2) != 4:  # bytes of an address and of a segment
            raise Malformed
        reader.fixed(self.width)
        self.least = reader.fixed(1)
        if self.version > 3 and reader.fixed(1) != 1:  # instructions of a word
            raise Malformed
        reader.fixed(1)
        base, self.range, self.first = (reader.fixed(1) for _ in range(3))
        self.base = base - 256 if base > 127 else base
        if not self.range or self.first <= FIXED_ADVANCE_PC:
            raise Malformed
        self.operands = [0, *(reader.fixed(1) for _ in range(self.first - 1))]
        self.folders, self.files = self.tables(reader) if self.version == 5 else self.old_tables(reader)

    def tables(self, reader):
        """The folders, and the files, each with the number of its folder."""
        return [name for _, name in self.entries(reader)], [*self.entries(reader)]

    def old_tables(self, reader):
        """Those of DWARF 2 to 4, which begin with 1. Where the unit was compiled isn't among them."""
        folders, files = ["", *iter(reader.text, "")], [(0, "")]
        for name in iter(reader.text, ""):
            files.append((reader.number(), name))
            reader.number(), reader.number()
            if len(files) > MOST_FILES:
                raise Malformed
        return folders, files

    def entries(self, reader) -> Iterator[tuple[int, str]]:
        columns = [(reader.number(), reader.number()) for _ in range(reader.fixed(1))]
        count = reader.number() if columns else 0
        if count > MOST_FILES:
            raise Malformed
        for _ in range(count):
            row = {what: self.value(reader, form) for what, form in columns}
            folder, name = row.get(FOLDER, 0), row.get(PATH, "")
            if not isinstance(folder, int) or not isinstance(name, str):
                raise Malformed
            yield folder, name

    def value(self, reader, form):
        if form == TEXT:
            return reader.text()
        if form in (LINE_TEXT, ANY_TEXT):
            return Reader(self.sections.line_texts if form == LINE_TEXT else self.sections.texts, reader.fixed(self.width)).text()
        if form in SIZES:
            return reader.fixed(SIZES[form])
        if form not in (NUMBER, BLOCK):
            raise Malformed
        return reader.number() if form == NUMBER else reader.fixed(reader.number())

    def path(self, number) -> str:
        """The path of a file. That of DWARF 2 to 4 begins where the unit was compiled, which the table doesn't have."""
        folder, name = self.files[number] if number < len(self.files) else (0, "")
        return os.path.join("", *self.folders[:1], *self.folders[folder:folder + 1], name) if name else ""

    @functools.cached_property
    def including(self) -> str | None:
        """The path of file 0, where some begin a sequence, if the file in which it does begin is another one."""
        zero, first = (self.path(number) for number in (0, FIRST_FILE)) if self.has_header and self.version == 5 else ("", "")
        return zero if zero != first else None


@functools.lru_cache(maxsize=None)
def usual_rows(first):
    """The rows as compilers write them, by the first opcode that is a row of its own: each has the byte after SET_FILE, that after
    ADVANCE_LINE, the two after FIXED_ADVANCE_PC, and its opcode if that isn't COPY. What is no such row comes last, with all after it."""
    small = rb"[\x00-\x7f]"
    return re.compile(rb"(?s)(?:%c(%b))?(?:%c%b)?%c?%b?(?:%c(%b))?(?:%b(..))?(?:%c|([%b-\xff]))|(.+)" % (
        SET_FILE, small, SET_COLUMN, small, NEGATE_STATEMENT, re.escape(bytes([PROLOGUE_END])), ADVANCE_LINE, small,
        re.escape(bytes([FIXED_ADVANCE_PC])), COPY, re.escape(bytes([first]))))


class Sequence:
    """Rows in the order of their addresses, read as far as they are asked for: `lines` has of each the number of the file, or None where no
    row so far names one, and the line. `at` is where the program goes on, or None at its end, and `address` how far it has come."""

    def __init__(self, unit: Unit, at):
        self.unit, self.at, self.address, self.file, self.line = unit, at, 0, None, 1
        self.starts: list[int] = []
        self.lines: list[tuple[int | None, int]] = []

    def row(self, address) -> Row | None:
        """The row of an address, if the sequence has it and is as the standard has it."""
        try:
            while self.at is not None and self.address <= address:
                self.read()
        except (Malformed, IndexError):
            self.at, self.address, self.starts = None, 0, []
        if not self.starts or not self.starts[0] <= address < self.address:
            return None
        file, line = self.lines[bisect.bisect_right(self.starts, address) - 1]
        return Row(self.unit.path(FIRST_FILE), line, self.unit.including) if file is None else Row(self.unit.path(file), line)

    def read(self):
        """Executes some of the program: the usual rows that come next, and then an opcode that isn't of one."""
        base, around, least, first = self.unit.base, self.unit.range, self.unit.least, self.unit.first
        address, line, file, starts, lines = self.address, self.line, self.file, self.starts, self.lines
        found = usual_rows(first).findall(self.unit.data, self.at, self.at + AT_ONCE)
        rest = found.pop()[-1] if found and found[-1][-1] else b""
        last = lines[-1][1] if lines and lines[-1][0] == file else None
        for other, advance, further, special, _ in found:
            if other:
                file, last = other[0], None
            if advance:
                line += advance[0] if advance[0] < 64 else advance[0] - 128
            if further:
                address += further[0] | further[1] << 8
            if special:
                address += (special[0] - first) // around * least
                line += base + (special[0] - first) % around
            if line != last:
                last = line
                starts.append(address)
                lines.append((file, line))
        self.at = min(self.at + AT_ONCE, len(self.unit.data)) - len(rest)
        self.address, self.line, self.file = address, line, file
        if rest or not found:
            self.execute(Reader(self.unit.data, self.at))
        if len(starts) > MOST_ROWS or starts and self.address < starts[-1]:
            raise Malformed

    def execute(self, reader):
        """Executes one opcode, which isn't a row of its own."""
        opcode = reader.fixed(1)
        if opcode == ADVANCE_LINE:
            self.line += reader.signed()
        elif opcode == ADVANCE_PC:
            self.address += reader.number() * self.unit.least
        elif opcode == SET_FILE:
            self.file = reader.number()
        elif opcode == CONST_ADD_PC:
            self.address += (255 - self.unit.first) // self.unit.range * self.unit.least
        elif opcode == FIXED_ADVANCE_PC:
            self.address += reader.fixed(2)
        elif opcode:
            for _ in range(self.unit.operands[opcode]):
                reader.number()
        else:
            size, begin = reader.number(), reader.at
            kind = reader.fixed(1) if size else 0
            reader.at = begin + size
            if kind == SET_ADDRESS:
                self.address = int.from_bytes(reader.data[begin + 1:reader.at], "little")
            if kind == END_SEQUENCE:
                self.at = None
                return
        self.at = reader.at


def last_of(items: list, starts: list[int], address) -> list:
    """Of items by their starts those that have the last start which isn't after an address. They have one, unless the linker has left out
    functions, which it then puts at 0."""
    after = bisect.bisect_right(starts, address)
    return items[bisect.bisect_left(starts, starts[after - 1]):after] if after else []


class LineTable:
    """The sequences of a program's line table. Only those are read that may have an address which is asked for."""

    def __init__(self, path):
        self.sections = Sections(path)
        self.units: list[Unit] = [*itertools.islice(self.all_units(), MOST_UNITS)]
        begins = sorted(self.beginnings(), key=lambda begin: begin[0])
        self.starts, self.sequences = [start for start, _ in begins], [sequence for _, sequence in begins]

    def all_units(self) -> Iterator[Unit]:
        lines, begin = self.sections.lines, 0
        while begin + 4 <= len(lines):
            size, at, width = int.from_bytes(lines[begin:begin + 4], "little"), begin + 4, 4
            if size == LONG_OFFSETS:
                size, at, width = int.from_bytes(lines[at:at + 8], "little"), at + 8, 8
            if at + size > len(lines):
                return
            yield Unit(self.sections, begin, at + size, at, width)
            begin = at + size

    def beginnings(self) -> Iterator[tuple[int, Sequence]]:
        """The addresses at which sequences begin, with these. Other bytes that look like the opcode aren't near the end of a sequence."""
        lines, ends = self.sections.lines, [unit.end for unit in self.units]
        at = lines.find(BEGINNING)
        while at >= 0:
            number, after = bisect.bisect_right(ends, at), at + len(BEGINNING)
            unit = self.units[number] if number < len(ends) else None
            ended = lines.rfind(ENDING, at - NEAR, at) if at > NEAR else -1
            begin = ended + len(ENDING) if ended >= 0 else unit.program if unit else 0
            if unit and unit.program <= begin <= at <= begin + NEAR:
                yield int.from_bytes(lines[after:after + 4], "little"), Sequence(unit, begin - unit.begin)
            at = lines.find(BEGINNING, after)

    def row(self, address, is_wanted=lambda unit: True) -> Row | None:
        """The row of an address, or None, also where it isn't of a unit that is wanted."""
        wanted = (sequence for sequence in last_of(self.sequences, self.starts, address)
                  if sequence.unit.has_header and is_wanted(sequence.unit))
        return next(filter(None, (sequence.row(address) for sequence in wanted)), None)

    def misread(self, address) -> Row | None:
        """The row of an address of which some take file 0 for its file, though that is another one."""
        found = self.row(address, lambda unit: unit.including is not None)
        return found if found and found.including is not None else None
