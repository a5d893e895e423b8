"""Instructions of 16 and 32 bits in a file: how long each is, the word that it stands for, and bytes that take its place. Where the unit
is 4 there are only those of 32 bits."""
from __future__ import annotations

from dataclasses import dataclass
from typing import Optional, Tuple

from . import halves, instructions as isa, rv32
from .halves import expanded, is_half


@dataclass
class Instruction:
    """Where an instruction is, how many bytes it has, and its word: of one of 16 bits, that of what it stands for, or the half itself if it
    stands for nothing."""

    address: int
    length: int
    word: int

    @property
    def next(self):
        return self.address + self.length

    @property
    def is_branch(self):
        """Whether it jumps on a condition."""
        return rv32.opcode(self.word) == rv32.BRANCH

    @property
    def target(self) -> Optional[int]:
        """Where a branch or a jump goes that has its distance in it."""
        return self.address + rv32.branch_offset(self.word) & 0xFFFFFFFF if rv32.opcode(self.word) in (rv32.BRANCH, rv32.JAL) else None


def read(data, place, room, unit) -> Optional[Tuple[int, int]]:
    """The length and the word of the instruction at a place of the data, where `room` bytes may be one's; None if it has more."""
    half = int.from_bytes(data[place:place + 2], "little")
    if unit == 2 and room >= 2 and is_half(half):
        return 2, expanded(half) or half
    return (4, int.from_bytes(data[place:place + 4], "little")) if room >= 4 else None


def in_bytes(*words) -> bytes:
    return b"".join(word.to_bytes(4, "little") for word in words)


def half_in_bytes(half) -> bytes:
    return half.to_bytes(2, "little")


def nop(length) -> bytes:
    return half_in_bytes(halves.NOP) if length == 2 else in_bytes(rv32.NOP)


def move(to, source, unit) -> bytes:
    """What gives a register the value of another one."""
    return half_in_bytes(halves.MOVE | to << 7 | source << 2) if unit == 2 else in_bytes(isa.move(to, source))


def load_number(to, number, unit) -> bytes:
    """What gives a register a number from 0 to 2047."""
    if unit == 2 and number <= halves.MOST:
        return half_in_bytes(halves.NUMBER | to << 7 | number << 2)
    return in_bytes(isa.load_immediate(to, number))
