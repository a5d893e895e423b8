"""Programs' files with sections of data and symbols of each kind, made by hand."""
from __future__ import annotations

import itertools
import struct
from dataclasses import dataclass

HEADER, PROGRAM_HEADER = 52, 32
ALLOCATED, CODE, THREAD_LOCAL = 2, 6, 0x402
LABEL, OBJECT, FUNCTION, OF_THREAD = 0, 1, 2, 6
ABSOLUTE = 0xFFF1


@dataclass(frozen=True)
class Part:
    """A section: its name, address, bytes, size, flags and alignment. It has no bytes in the file if there are none."""

    name: str
    address: int
    content: bytes = b""
    size: int = 0
    flags: int = ALLOCATED
    align: int = 4

    @property
    def length(self) -> int:
        return self.size or len(self.content)

    @property
    def kind(self) -> int:
        return 1 if self.content else 8


@dataclass(frozen=True)
class Name:
    """A symbol: its name, address and size, what it is, and the number of its section, from 1, or ABSOLUTE."""

    name: str
    address: int
    size: int = 0
    kind: int = OBJECT
    section: int = 1


def texts(names: list[str]) -> tuple[bytes, list[int]]:
    """A table of strings, and the place of each in it."""
    parts = [name.encode() + b"\0" for name in names]
    return b"\0" + b"".join(parts), list(itertools.accumulate(map(len, parts), initial=1))[:-1]


def file_of(parts: list[Part], names: list[Name], entry: int = 0x10000) -> bytes:
    """A static program for RV32: a segment for each section, which may be written and executed. Without symbols it has no table of them."""
    at = HEADER + PROGRAM_HEADER * len(parts)
    places = list(itertools.accumulate((len(part.content) for part in parts), initial=at))
    segments = b"".join(struct.pack("<8I", 1, place, part.address, part.address, len(part.content), part.length, 7, 4)
                        for part, place in zip(parts, places))
    content = b"".join(part.content for part in parts)
    strings, starts = texts([name.name for name in names])
    table = bytes(16) + b"".join(struct.pack("<IIIBBH", start, name.address, name.size, 16 | name.kind, 0, name.section)
                                 for start, name in zip(starts, names))
    titles, begins = texts([*(part.name for part in parts), ".symtab", ".strtab", ".shstrtab"])
    after = places[-1]
    more = [(2, after, len(table), len(parts) + 2, 16), (3, after + len(table), len(strings), 0, 0)] if names else []
    content += table + strings if names else b""
    more.append((3, at + len(content), len(titles), 0, 0))
    sections = [bytes(40), *(struct.pack("<10I", begin, part.kind, part.flags, part.address, place, part.length, 0, 0, part.align, 0)
                             for begin, part, place in zip(begins, parts, places))]
    sections += [struct.pack("<10I", begin, kind, 0, 0, place, size, link, 0, 1, each)
                 for begin, (kind, place, size, link, each) in zip(begins[len(parts) + (0 if names else 2):], more)]
    content += titles
    header = b"\x7fELF\x01\x01\x01" + bytes(9) + struct.pack(
        "<HHIIIIIHHHHHH", 2, 243, 1, entry, HEADER, at + len(content), 0, HEADER, PROGRAM_HEADER, len(parts), 40, len(sections),
        len(sections) - 1)
    return header + segments + content + b"".join(sections)
