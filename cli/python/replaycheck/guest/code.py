"""The code of a program's file: where it is, its instructions in order, and the stretches of them that only run as a whole."""
from __future__ import annotations

import bisect
from typing import Iterator, List, Optional

from replaycheck.endings import Fault
from replaycheck.guest.elf import HAS_CODE, Elf, refusals
from replaycheck.guest.encodings import Instruction, read
from replaycheck.programs import unit_of
from replaycheck.stand_ins import ranges_of

LONGEST_FILE = 1 << 26
EXECUTABLE = 1  # the flag of a segment
CODE, DATA = "$x", "$d"  # how the names of mapping symbols begin


def joined(ranges):
    """Ranges in order, with those that meet made one."""
    together = []
    for start, end in sorted([*pair] for pair in ranges if pair[0] < pair[1]):
        if together and start <= together[-1][1]:
            together[-1][1] = max(together[-1][1], end)
        else:
            together.append([start, end])
    return together


def without(ranges, others):
    """What of joined ranges is in none of the others, which are joined too."""
    left = []
    for start, end in ranges:
        index = max(bisect.bisect_right(others, [start, 1 << 32]) - 1, 0)
        while index < len(others) and others[index][0] < end:
            if others[index][0] > start:
                left.append([start, others[index][0]])
            start = max(start, others[index][1])
            index += 1
        if start < end:
            left.append([start, end])
    return left


class Code:
    """The code of a file for an instruction set. `ranges` has the addresses at which the file has bytes of executable sections, or of
    executable segments if it has no sections, but for the stubs that `adopt` has added."""

    def __init__(self, path, isa, regions):
        with open(path, "rb") as file:
            data = file.read(LONGEST_FILE + 1)
        refused = next((refusal for refusal in refusals(data, regions) if not refusal.readable), None)
        if refused:
            raise Fault(f"{path}: {refused.what}: {refused.cure}")
        self.elf, self.unit = Elf(data, regions), unit_of(isa)
        self.ranges = ranges_of_code(self.elf, self.unit, [[start, start + len(stub)] for _, start, stub in ranges_of(data)])
        self.starts = self.resyncs()

    def resyncs(self) -> List[int]:
        """Where an instruction begins as a symbol says: a function, a label or a mapping symbol."""
        return sorted({symbol.value for symbol in [*self.elf.functions, *self.elf.labels] if not symbol.value % self.unit}
                      | {symbol.value for symbol in self.elf.symbols if self.elf.name(symbol).startswith(CODE)})

    def data(self) -> List[List[int]]:
        """The ranges that mapping symbols call data."""
        marks = sorted({(symbol.value, self.elf.name(symbol)[:2]) for symbol in self.elf.symbols
                        if self.elf.name(symbol)[:2] in (CODE, DATA)})
        ends = [value for value, _ in marks[1:]] + [1 << 32]
        return joined([value, end] for (value, name), end in zip(marks, ends) if name == DATA)

    def gaps(self) -> List[List[int]]:
        """What follows a function of known size, up to the next symbol in code: the bytes that align it."""
        known = sorted({function.value + function.size for function in self.elf.functions if function.size})
        inside = joined([function.value, function.value + function.size] for function in self.elf.functions if function.size)
        found = ([end, self.starts[at] if (at := bisect.bisect_left(self.starts, end)) < len(self.starts) else 1 << 32] for end in known)
        return without(joined(found), inside)

    def parts(self, executed) -> List[List[int]]:
        """The ranges that have instructions: code that is neither data nor a gap, and what was executed all the same."""
        left = without(self.ranges, joined([*self.data(), *self.gaps()]))
        starts = [start for start, _ in left]
        more = [address for address in executed if not (at := bisect.bisect_right(starts, address)) or left[at - 1][1] <= address]
        return joined([*left, *([address, address + self.unit] for address in more)])

    def instructions(self, executed: List[int]) -> Iterator[Instruction]:
        """All instructions, in order. One begins at each address that was executed, whatever the one before it is taken for."""
        begins = sorted({*self.starts, *executed})
        for start, end in self.parts(executed):
            address, at = start, bisect.bisect_right(begins, start)
            while address + self.unit <= end:
                instruction = self.instruction(address)
                if instruction is None:
                    break
                yield instruction
                address = instruction.next
                while at < len(begins) and begins[at] <= instruction.address:
                    at += 1
                if at < len(begins) and begins[at] < address:
                    address = begins[at]

    def instruction(self, address) -> Optional[Instruction]:
        """The instruction at an address, if the file has all its bytes."""
        place = self.elf.place(address, 2)
        found = place is not None and read(self.elf.data, place, 2 if self.elf.place(address, 4) is None else 4, self.unit)
        return Instruction(address, *found) if found else None


def ranges_of_code(elf, unit, stubs) -> List[List[int]]:
    """The ranges of a file's code, each from and to a multiple of a unit."""
    found = joined([section.addr, section.addr + section.size] for section in elf.sections if section.flags & HAS_CODE)
    if not elf.sections:
        found = joined([segment.vaddr, segment.vaddr + segment.filesz] for segment in elf.contents if segment.flags & EXECUTABLE)
    outside = without(found, joined([segment.vaddr, segment.vaddr + segment.filesz] for segment in elf.contents))
    whole = ([start + -start % unit, end - end % unit] for start, end in without(found, outside))
    return without(joined(whole), joined(stubs))
