"""Addresses that are free for what is added to a file: near the instructions that jump there, and apart from all else."""
from __future__ import annotations

import bisect
from dataclasses import dataclass

from replaycheck.guest import instructions as isa
from replaycheck.guest.code import joined, without

from .outside import DEVICES, PAGE

# How far a jump goes there and back, less what a stub has.
REACH = isa.JUMP_REACH - 0x100
ALIGNED = 16
# How far what is added is from all else: so a write that goes past something isn't lost in it.
APART = (PAGE, ALIGNED)


@dataclass(frozen=True)
class Group:
    """Added code: its address, and those of the instructions that jump there."""

    address: int
    sites: list[int]


def taken(elf):
    """What isn't free: segments, the physical addresses of their bytes, regions, known devices and the first page."""
    return [(0, PAGE), *((low, high) for _, low, high in elf.regions.ranges), *((first, first + size) for first, size, _ in DEVICES),
            *((load.vaddr, load.vaddr + load.memsz) for load in elf.loads),
            *((segment.paddr, segment.paddr + segment.filesz) for segment in elf.contents)]


class Spaces:
    """The free addresses of a file, in order, but for some others. What is given away is free no more."""

    def __init__(self, elf, others, apart):
        self.apart = apart
        wide = joined((max(start - apart, 0), end + apart) for start, end in [*taken(elf), *others])
        self.free = without([[0, 1 << 32]], wide)

    def take(self, sites, size):
        """The address of a free piece of a size that all sites reach, nearest to the first of them, or None."""
        low, high = sites[-1] - REACH, sites[0] + REACH
        index = max(bisect.bisect_right(self.free, [max(low, 0), 1 << 32]) - 1, 0)
        found = []
        while index < len(self.free) and self.free[index][0] < high:
            start, end = self.free[index]
            first = -(-max(start, low) // ALIGNED) * ALIGNED
            last = (min(end, high) - size) // ALIGNED * ALIGNED
            if first <= last:
                address = min(max(sites[0], first), last)
                found.append((abs(address - sites[0]), address // ALIGNED * ALIGNED, index))
            index += 1
        if not found:
            return None
        _, address, index = min(found)
        start, end = self.free[index]
        pieces = [[start, address - self.apart], [address + size + self.apart, end]]
        self.free[index:index + 1] = [piece for piece in pieces if piece[0] < piece[1]]
        return address


def halves(sites):
    """Sites in two parts, by the middle of their addresses."""
    middle = bisect.bisect_right(sites, (sites[0] + sites[-1]) // 2)
    return sites[:middle], sites[middle:]


def groups(elf, others, sites, first, each):
    """Sites in groups, each with an address for `each` bytes a site, and `first` bytes more in the first group, apart from
    other ranges too; None if there is no place for some."""
    for apart in APART:
        spaces, found, waiting = Spaces(elf, others, apart), [], [sites]
        while waiting:
            part = waiting.pop()
            address = spaces.take(part, each * len(part) + (0 if found else first))
            if address is not None:
                found.append(Group(address, part))
            elif part[0] == part[-1]:
                found = None
                break
            else:
                waiting += reversed(halves(part))
        if found:
            return found
    return None
