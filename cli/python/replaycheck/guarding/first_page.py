"""The first 256 addresses, to which a null pointer leads: which of them a program uses."""
from __future__ import annotations

from typing import List, Set

from replaycheck.guest import instructions
from replaycheck.guest.code import joined
from replaycheck.guest.elf import IS_COMPRESSED, Elf
from replaycheck.guest.encodings import Instruction, read

from .gaps import is_place

PAGE = 256


def used(elf: Elf) -> List[List[int]]:
    """The ranges of the page that a program with symbols uses: those that a symbol has, and the code that is reached from the entry. What
    follows a symbol without a size is its own up to the next one."""
    if not any(start < PAGE for start, _ in elf.loaded):
        return []
    places = [symbol for symbol in elf.symbols if is_place(symbol)]
    starts = sorted({symbol.value for symbol in places} | {PAGE})
    ranges = [[symbol.value, symbol.value + symbol.size if symbol.size else next(start for start in starts if start > symbol.value)]
              for symbol in places if symbol.value < PAGE]
    ranges += [[instruction.address, instruction.next] for instruction in reached(elf) if instruction.address < PAGE]
    return joined([start, min(end, PAGE)] for start, end in ranges)


def reached(elf: Elf) -> List[Instruction]:
    """The instructions that are reached from the entry by each next one, each branch, and each jump that has its distance in it."""
    unit = 2 if elf.flags & IS_COMPRESSED else 4
    waiting, seen, found = [elf.entry], set(), []  # type: List[int], Set[int], List[Instruction]
    while waiting:
        address = waiting.pop()
        place = elf.place(address, unit)
        if address in seen or place is None:
            continue
        seen.add(address)
        word = read(elf.data, place, 4 if elf.place(address, 4) is not None else 2, unit)
        if word is None:
            continue
        instruction = Instruction(address, *word)
        found.append(instruction)
        if instruction.target is not None:
            waiting.append(instruction.target)
        if not instructions.ends(instruction.word):
            waiting.append(instruction.next)
    return found
