"""Shorter inputs that lead to the same finding, and ones that are nearer to the seed."""
from __future__ import annotations

from typing import Callable, Iterator, Optional

from .tries import LONGEST

MOST_TRIES = 4096  # for one input
PLAIN = (0, 1, ord("0"))  # what a byte becomes that needn't have its value


def cuts(length: int) -> Iterator[int]:
    """How many bytes are cut at once: halves first, at last one."""
    size = length // 2
    while size:
        yield size
        size //= 2


class Shortening:
    """Shortens an input. `held` returns another one with which the finding stays, that one itself or with compares put right, or None. It
    is asked at most MOST_TRIES times."""

    def __init__(self, content: bytes, seed: bytes, held: Callable[[bytes], Optional[bytes]]):
        self.content, self.seed, self.held, self.left = content, seed, held, MOST_TRIES

    def takes(self, content: bytes) -> bool:
        """Takes another input for the one that there is, if the finding stays."""
        if self.left and content != self.content:
            self.left -= 1
            held = self.held(content)
            if held is not None and held != self.content:
                self.content = held
                return True
        return False

    def run(self) -> bytes:
        before = None
        while before != self.content and self.left:
            before = self.content
            if len(before) <= LONGEST:
                self.cut()
            self.put_back()
        return self.content

    def cut(self):
        for size in cuts(len(self.content)) if len(self.content) > 1 else (1,):
            at = 0
            while at + size <= len(self.content):
                if not self.takes(self.content[:at] + self.content[at + size:]):
                    at += size

    def put_back(self):
        """Gives each byte the seed's value, or a plain one."""
        for at in range(len(self.content)):
            for value in (*self.seed[at:at + 1], *PLAIN):
                if self.content[at] == value:
                    break
                if self.takes(self.content[:at] + bytes([value]) + self.content[at + 1:]):
                    break
