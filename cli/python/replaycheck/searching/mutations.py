"""Inputs made of others by chance: stacks of small changes, tokens and splices."""
from __future__ import annotations

import random
from typing import Callable, List, Optional, Set

from .tries import LONGEST

MOST_TOKENS, LONGEST_TOKEN = 512, 64
STACKS = 5  # a stack has 1, 2, 4, 8 or 16 changes
SPLICES = 8  # one of this number of inputs is spliced first
VALUES = (0, 1, 2, 4, 8, 16, 32, 64, 100, 127, 128, 254, 255)  # at which programs often do something else
FARTHEST = 35  # what is added to a number, or taken from it, at most
MOST_MOVED, MOST_COPIED, MOST_NEW = 32, 16, 4  # bytes that a change removes or repeats, copies, or inserts


class Mutations:
    """Changes inputs by a generator of numbers. An input stays within `most` bytes."""

    def __init__(self, seed: int, most: int, tokens: List[bytes]):
        self.random, self.most = random.Random(seed).random, most
        self.tokens: List[bytes] = []
        self.known: Set[bytes] = set()
        for token in tokens:
            self.add(token)
        self.same_length: List[Callable] = [self.flip, self.byte, self.byte, self.value, self.add_to, self.add_to, self.over, self.over,
                                            self.copy, self.pair]
        self.all: List[Callable] = [*self.same_length, self.put, self.put, self.remove, self.repeat, self.repeat, self.insert]

    def add(self, token: bytes):
        """Adds a token that isn't known."""
        if token and len(self.tokens) < MOST_TOKENS and token not in self.known:
            self.known.add(token)
            self.tokens.append(token)

    def below(self, bound: int) -> int:
        return int(self.random() * bound)

    def mutated(self, content: bytes, other: bytes, end: Optional[int]) -> bytes:
        """A mutated input; `other` is one that it may be spliced with. Half of them end at `end`: compares look at no byte after it."""
        if len(content) > LONGEST:
            return self.mutated_within(content)
        made = bytearray(content)
        if end is not None and len(made) > end and self.random() * 2 < 1:
            del made[end:]
        if self.random() * SPLICES < 1:
            del made[self.below(len(made) + 1):]
            made += other[self.below(len(other) + 1):]
        changes, count, draw = self.all, len(self.all), self.random
        for _ in range(1 << int(draw() * STACKS)):
            changes[int(draw() * count)](made)
        return bytes(made[:self.most])

    def mutated_within(self, content: bytes) -> bytes:
        """A long input of which some bytes close together are changed."""
        begin = self.below(len(content) - LONGEST + 1)
        made = bytearray(content[begin:begin + LONGEST])
        for _ in range(1 << self.below(STACKS)):
            self.same_length[self.below(len(self.same_length))](made)
        return content[:begin] + bytes(made) + content[begin + LONGEST:]

    # ---- changes that keep the length

    def flip(self, made):
        if made:
            made[int(self.random() * len(made))] ^= 1 << int(self.random() * 8)

    def byte(self, made):
        if made:
            made[int(self.random() * len(made))] = int(self.random() * 256)

    def value(self, made):
        if made:
            made[int(self.random() * len(made))] = VALUES[int(self.random() * len(VALUES))]

    def add_to(self, made):
        if made:
            at = int(self.random() * len(made))
            made[at] = made[at] + self.step() & 0xFF

    def step(self) -> int:
        """What is added to a number: from -FARTHEST to FARTHEST, not 0."""
        step = int(self.random() * 2 * FARTHEST) - FARTHEST
        return step if step < 0 else step + 1

    def over(self, made):
        """Writes a token over bytes."""
        if self.tokens and made:
            at, token = self.below(len(made)), self.tokens[self.below(len(self.tokens))]
            token = token[:len(made) - at]
            made[at:at + len(token)] = token

    def copy(self, made):
        """Copies bytes over others."""
        if made:
            at, to = self.below(len(made)), self.below(len(made))
            part = made[at:at + 1 + self.below(MOST_COPIED)][:len(made) - to]
            made[to:to + len(part)] = part

    def pair(self, made):
        """Adds to a number of two bytes, the lower or the higher one first."""
        if len(made) > 1:
            at, order = self.below(len(made) - 1), "little" if self.random() < 0.5 else "big"
            number = int.from_bytes(made[at:at + 2], order) + self.step() & 0xFFFF
            made[at:at + 2] = number.to_bytes(2, order)

    # ---- changes of the length

    def put(self, made):
        """Puts a token between bytes."""
        if self.tokens:
            at = self.below(len(made) + 1)
            made[at:at] = self.tokens[self.below(len(self.tokens))]

    def remove(self, made):
        if len(made) > 1:
            at = self.below(len(made))
            del made[at:at + 1 + self.below(MOST_MOVED)]

    def repeat(self, made):
        """Puts a copy of bytes between others."""
        if made:
            at, to = self.below(len(made)), self.below(len(made) + 1)
            made[to:to] = made[at:at + 1 + self.below(MOST_MOVED)]

    def insert(self, made):
        at = self.below(len(made) + 1)
        made[at:at] = bytes(self.below(256) for _ in range(1 + self.below(MOST_NEW)))
