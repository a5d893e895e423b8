"""The places of a sweep's input or program, and the values that each is given: bytes, words, or instructions of either length."""
from __future__ import annotations

import bisect
from dataclasses import dataclass, field
from typing import Dict, Iterator, List, Optional, Tuple, Union

from replaycheck.guest import halves, rv32
from replaycheck.guest.elf import Elf
from replaycheck.guest.halves import is_half

HALF, WORD = 2, 4  # bytes of an instruction
# The instruction that does nothing, by its length.
NO_OP = {HALF: halves.NOP, WORD: rv32.NOP}
MOST_EDITS = {"all": 255, "edges": 7, "skip": 1}
BITS = 8  # of a byte
Values = Union[str, Tuple[int, ...]]
Value = Union[int, str]  # of a byte, a word or a half, or the text of an edit at a step


class Half(int):
    """A value of two bytes, which the line `patch16` writes."""


class Places:
    """Places of a sweep from a first one to a last one. Each has an ordinal, by which it is known what comes before what, and a number, by
    which a sweep is cut into parts. `size` is the number of ordinals, `start` the first place and `stride` the distance of two; a place has
    `most` edits at most."""

    kind: str

    @property
    def size(self) -> int:
        raise NotImplementedError

    @property
    def start(self) -> int:
        raise NotImplementedError

    @property
    def stride(self) -> int:
        raise NotImplementedError

    @property
    def most(self) -> int:
        raise NotImplementedError

    @property
    def count(self) -> int:
        """How many places there are."""
        return self.size

    @property
    def most_edits(self) -> int:
        """How many edits all places have at most."""
        return self.count * self.most

    def place(self, ordinal: int) -> int:
        return self.start + ordinal * self.stride

    def ordinal(self, number: int) -> int:
        """The ordinal of the place with a number."""
        return number

    def number(self, ordinal: int) -> int:
        """The number of the first place that has this ordinal or a greater one."""
        return ordinal

    def takes(self, kind: str, at: int, value: Value) -> bool:
        """Whether a sweep may give a place this value."""
        last = self.place(self.size - 1)
        return kind == self.kind and self.start <= at <= last and (at - self.start) % self.stride == 0 and not isinstance(value, Half)

    def ordinals_of(self, length: int) -> int:
        """How many ordinals belong to a place. An instruction has this length in bytes."""
        return 1

    def first_missing(self, begin: int, end: int) -> Optional[int]:
        """The first place of some ordinals that must have an edit."""
        return None

    def wanted(self, at: int) -> Optional[List[int]]:
        """All edits of a place; None where that isn't known."""
        return None


@dataclass(frozen=True)
class Range(Places):
    """Bytes or words, each from a first place to a last one, and the values that they are given."""

    kind: str
    first: int
    last: int
    values: Values

    @property
    def most(self) -> int:
        """How many edits a place has at most."""
        if self.values == "flips":
            return BITS if self.kind == "bytes" else BITS * WORD
        return MOST_EDITS[self.values] if isinstance(self.values, str) else len(self.values)

    @property
    def start(self) -> int:
        """The first place: words are multiples of 4."""
        return -(-self.first // self.stride) * self.stride

    @property
    def stride(self) -> int:
        return 1 if self.kind == "bytes" else WORD

    @property
    def size(self) -> int:
        return max(0, (self.last - self.start) // self.stride + 1)

    def first_missing(self, begin: int, end: int) -> Optional[int]:
        """Each byte has an edit, unless one value alone is tried, which may be the one that is there."""
        has_edits = self.kind == "bytes" and (isinstance(self.values, str) or len(self.values) > 1)
        return self.place(begin) if has_edits and begin < end else None

    def named(self, place: int) -> str:
        return f"0x{place:08x}" if self.kind == "words" else str(place)

    def called(self, place: int) -> str:
        """A place in words."""
        return f"{self.kind[:-1]} {self.named(place)}"

    def line(self, place: int, value: int) -> str:
        """The line of a session that makes an edit."""
        return f"patch 0x{place:08x} 0x{value:08x}" if self.kind == "words" else f"input {place} {value}"

    def __str__(self) -> str:
        values = self.values
        if not isinstance(values, str):
            values = ",".join(self.named(value) for value in values)
        return f"{self.kind} {self.named(self.first)}..{self.named(self.last)}, values {values}"

    def words(self) -> List[str]:
        """The options that ask for it."""
        told = self.values if isinstance(self.values, str) else ",".join(map(self.named, self.values))
        names = ("--bytes", "--values") if self.kind == "bytes" else ("--words", "--words-values")
        return [f"{names[0]}={self.named(self.first)}..{self.named(self.last)}", f"{names[1]}={told}"]


class Loaded:
    """The instructions from one address on, by their lengths, up to one that begins at another address or before it: of each its length and
    its value. What isn't loaded is passed over, by two bytes at a time."""

    def __init__(self, elf: Elf, first: int, last: int) -> None:
        self.found: Dict[int, Tuple[int, int]] = {}
        at = -(-first // HALF) * HALF
        for begin, content in loaded(elf):
            at = max(at, -(-begin // HALF) * HALF)
            end = begin + len(content)
            while at <= last and at + HALF <= end:
                half = int.from_bytes(content[at - begin:at - begin + HALF], "little")
                length = HALF if is_half(half) else WORD
                if at + length <= end:
                    self.found[at] = length, int.from_bytes(content[at - begin:at - begin + length], "little")
                    at += length
                else:  # the second half isn't loaded
                    at += HALF
        self.starts = list(self.found)


def loaded(elf: Elf) -> Iterator[Tuple[int, bytearray]]:
    """What a file loads, in order: where memory begins whose bytes come one after another, and its bytes."""
    begin, content = 0, bytearray()
    for segment in sorted((load for load in elf.loads if load.memsz), key=lambda load: load.vaddr):
        in_file = elf.data[segment.offset:segment.offset + segment.filesz]
        for low, high in elf.regions.loaded(segment):
            if content and low != begin + len(content):
                yield begin, content
                content = bytearray()
            if not content:
                begin = low
            content += in_file[low - segment.vaddr:].ljust(high - low, b"\0")
    if content:
        yield begin, content


@dataclass(frozen=True)
class Code(Range):
    """Instructions of 16 or 32 bits, which may begin at each multiple of 2, from a first address to a last one. Each such address has an
    ordinal. `known` are the instructions that the program's file has there: without the file it isn't known which places there are, and
    each multiple of 2 may be one."""

    known: Optional[Loaded] = field(default=None, compare=False, repr=False)

    @property
    def stride(self) -> int:
        return HALF

    @property
    def most_edits(self) -> int:
        if self.known is None:
            return super().most_edits
        return sum(len(self.wanted(at) or ()) for at in self.known.starts)

    @property
    def count(self) -> int:
        return self.size if self.known is None else len(self.known.starts)

    def ordinal(self, number: int) -> int:
        return number if self.known is None else (self.known.starts[number] - self.start) // HALF

    def number(self, ordinal: int) -> int:
        return ordinal if self.known is None else bisect.bisect_left(self.known.starts, self.place(ordinal))

    def takes(self, kind: str, at: int, value: Value) -> bool:
        is_there = kind == "words" and self.start <= at <= self.last and at % HALF == 0
        if not is_there or self.known is None:
            return is_there
        return self.known.found.get(at, (0, 0))[0] == length_of(value)

    def ordinals_of(self, length: int) -> int:
        return length // HALF

    def first_missing(self, begin: int, end: int) -> Optional[int]:
        if self.known is None:
            return None
        starts = self.known.starts
        return next((at for at in starts[self.number(begin):self.number(end)] if self.wanted(at)), None)

    def before(self, at: int) -> Optional[int]:
        """The instruction that the file has at an address, None where that isn't known."""
        if self.known is None or at not in self.known.found:
            return None
        length, value = self.known.found[at]
        return Half(value) if length == HALF else value

    def wanted(self, at: int) -> Optional[List[int]]:
        if self.known is None:
            return None
        length, was = self.known.found[at]
        return [value for value in values_for(self.values, length, was) if value != was]

    def named(self, place: int) -> str:
        return f"0x{place:04x}" if isinstance(place, Half) else f"0x{place:08x}"

    def called(self, place: int) -> str:
        return f"the instruction at 0x{place:08x}"

    def line(self, place: int, value: int) -> str:
        return f"patch{'16' if isinstance(value, Half) else ''} 0x{place:08x} {self.named(value)}"


def length_of(value: Value) -> int:
    """How many bytes the instruction has that a value takes the place of."""
    return HALF if isinstance(value, Half) else WORD


def values_for(values: Values, length: int, was: int) -> List[int]:
    """The values that an instruction of a length is given. A list is of words, and so of instructions of 32 bits."""
    if isinstance(values, str):
        return [was ^ 1 << bit for bit in range(BITS * length)] if values == "flips" else [NO_OP[length]]
    return [] if length == HALF else list(values)
