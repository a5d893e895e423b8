"""The gaps between the objects of a program, which nothing may read or write: what its symbols leave, or what the map of the link calls
free."""
from __future__ import annotations

from dataclasses import dataclass, field
from typing import Dict, Iterator, List, Set, Tuple

from replaycheck.endings import Fault
from replaycheck.guest.code import joined, without
from replaycheck.guest.elf import HAS_CODE, OBJECT, Elf, Section, Symbol

from .link_map import LinkMap

ALLOCATED, NO_BYTES, THREAD_LOCAL, SPECIAL = 2, 8, 0x400, 0xFF00
OF_SECTION, OF_FILE, OF_THREAD = 3, 4, 6  # kinds of symbols that are no places of memory
MOST_ALIGNED = 15  # bytes that align what follows, in a section with bytes in the file
Range = Tuple[int, int]


@dataclass
class Gaps:
    """The gaps that may be closed; the objects of the sections that were looked at; the sections that were not, each with the reason; and
    how many gaps of a section may be in use."""

    ranges: List[List[int]] = field(default_factory=list)
    objects: Set[Range] = field(default_factory=set)
    left_out: Dict[str, str] = field(default_factory=dict)
    unsure: Dict[str, int] = field(default_factory=dict)

    @property
    def guarded(self) -> int:
        """How many objects have a closed byte after them."""
        starts = {start for start, _ in self.ranges}
        return sum(end in starts or any(start < end < last for start, last in self.ranges) for _, end in self.objects)


def is_place(symbol: Symbol) -> bool:
    """Whether a symbol names a place of memory."""
    return symbol.section < SPECIAL and symbol.info & 15 not in (OF_SECTION, OF_FILE, OF_THREAD)


def is_object(symbol: Symbol) -> bool:
    return symbol.info & 15 == OBJECT and symbol.size > 0


def reason_to_leave_out(elf: Elf, index: int) -> str:
    """Why a section that is loaded has no gaps; nothing if it may have some."""
    section = elf.sections[index]
    if section.flags & HAS_CODE:
        return "code"
    if section.flags & THREAD_LOCAL:
        return "thread-local"
    if not any(symbol.section == index and is_object(symbol) for symbol in elf.symbols):
        return "no object"
    if without([[section.addr, section.addr + section.size]], joined(elf.loaded)):
        return "not loaded"
    return ""


def between_symbols(elf: Elf, section: Section) -> Iterator[Range]:
    """What lies between the end of an object and the next symbol. What follows a symbol without a size isn't known."""
    start, last = section.addr, section.addr + section.size
    here = sorted((symbol.value, symbol.size if is_object(symbol) else 0) for symbol in elf.symbols
                  if is_place(symbol) and start <= symbol.value < last)
    end, is_known = start, False
    for value, size in here:
        if is_known and value > end:
            yield end, value
        if size and value + size >= end:
            end, is_known = value + size, True
        elif not size and value >= end:
            end, is_known = value, False
    if is_known and end < last:
        yield end, last


def is_free(elf: Elf, section: Section, gap: Range, room: int) -> bool:
    """Whether a gap is as long as what aligns an object or as padding of so many bytes may be, and in a section with bytes in the file has
    zeros. What is longer may be constants without a name, or in .bss a stack or a heap that the linker script has made."""
    start, end = gap
    if section.kind == NO_BYTES:
        return end - start < 2 * room + max(section.align, 1)
    place = elf.place(start, end - start)
    return end - start <= room + MOST_ALIGNED and place is not None and not any(elf.data[place:place + end - start])


def by_symbols(elf: Elf, room: int) -> Gaps:
    """The gaps that the symbol table tells."""
    found = Gaps()
    for section, name in sections_of(elf, found):
        gaps = [*between_symbols(elf, section)]
        free = [gap for gap in gaps if is_free(elf, section, gap, room)]
        found.ranges += map(list, free)
        if len(free) < len(gaps):
            found.unsure[name] = len(gaps) - len(free)
    return found


def by_map(elf: Elf, link: LinkMap, room: int) -> Gaps:
    """The gaps that the map of the link tells: what the linker has filled, and padding of so many bytes."""
    found, sections = Gaps(), []
    for section, name in sections_of(elf, found):
        if link.outputs.get(name) != (section.addr, section.size):
            raise Fault(f"{link.path}: not the map of this file, which has {name} at 0x{section.addr:08x} with {section.size} bytes")
        sections.append([section.addr, section.addr + section.size])
    free = joined((fill.start, fill.end) for fill in link.fills if fill.is_free(room))
    inside = without(free, without([[0, 1 << 32]], joined(sections)))
    found.ranges = without(inside, joined(found.objects))
    return found


def sections_of(elf: Elf, found: Gaps) -> Iterator[Tuple[Section, str]]:
    """The sections of data, each with its name. Notes their objects, and why others are left out."""
    for index, section in enumerate(elf.sections):
        if not section.flags & ALLOCATED or not section.size:
            continue
        name, why = elf.section_name(section), reason_to_leave_out(elf, index)
        if why:
            found.left_out[name] = why
            continue
        found.objects |= {(symbol.value, symbol.value + symbol.size) for symbol in elf.symbols
                          if symbol.section == index and is_object(symbol)}
        yield section, name
