"""What is asked of inputs that came out as nothing new: a second compare may have to come out otherwise, too, before anything does."""
from __future__ import annotations

import hashlib
from collections import deque
from dataclasses import dataclass
from typing import Deque, Iterator, List, Optional, Set, Tuple

from .asking import AHEAD, Asking
from .compares import Compare
from .entries import Entry
from .shares import Share
from .tries import LONGEST, Pair

QUIET = 2000  # tries without news after which it begins
DEEPEST = 4  # compares that are solved on top of each other
TURN = 1024  # tries of it in a turn
MOST_SOLVED = 256  # inputs of one input
MOST_WAITING, MOST_KNOWN = 256, 100000  # inputs and sources that wait, and inputs that are known


class Known:
    """Inputs that are known, by their sums. Where there are many, no other one is new."""

    def __init__(self):
        self.sums: Set[bytes] = set()

    def add(self, content: bytes) -> bool:
        """Adds an input. Returns whether it is new."""
        digest = hashlib.blake2b(content, digest_size=16).digest()
        if digest in self.sums or len(self.sums) >= MOST_KNOWN:
            return False
        self.sums.add(digest)
        return True


@dataclass(frozen=True)
class Source:
    """An input with others made of it that came out as nothing new: the entry of the queue from which it follows, and by how many such
    inputs."""

    entry: Entry
    content: bytes
    vain: List[bytes]
    depth: int


class Deepening:
    """Asks for the compares of inputs of sources: of each source one for each compare after which its run leaves that of the source. The
    shallowest source comes first, and of those the newest."""

    def __init__(self, worker):
        self.worker, self.share = worker, Share(lambda: worker.all_runs)
        self.sources: List[Deque[Source]] = [deque(maxlen=MOST_WAITING) for _ in range(DEEPEST)]
        self.waiting: Deque[Source] = deque()
        self.tried, self.asked = Known(), Known()

    @property
    def is_due(self) -> bool:
        """Whether there is work, and nothing newer to do."""
        has_work = bool(self.waiting) or any(self.sources)
        return has_work and self.worker.all_runs - self.worker.quiet_since >= QUIET and self.share.has_room

    def add(self, entry: Entry, asking: Asking, depth=0):
        """Adds an input whose compares were asked for."""
        if asking.vain and depth < DEEPEST and len(asking.content) <= LONGEST:
            self.sources[depth].append(Source(entry, asking.content, asking.vain, depth))

    def turn(self):
        end = self.worker.all_runs + TURN
        with self.share.work():
            while self.worker.all_runs < end and self.step():
                pass

    def step(self) -> bool:
        """Does a piece of work. Returns whether there was one."""
        if self.waiting:
            source = self.waiting.popleft()
            self.worker.at_work = source.entry
            asking = Deeper(self.worker, Entry(source.content, source.entry.number, False), self)
            asking.work()
            self.add(source.entry, asking, source.depth)
            return True
        sources = next(filter(None, self.sources), None)
        if not sources:
            return False
        self.open(sources.pop())
        return True

    def open(self, source: Source):
        """Asks where the runs of a source's inputs leave its own."""
        self.worker.at_work = source.entry
        tries, places = self.worker.tries_for(source.content), set()
        tries.set_base(source.content)

        def take(content: bytes, pairs: List[Pair]):
            parting = self.worker.comparisons.parting(pairs)
            if parting and parting.pc not in places and len(self.waiting) < MOST_WAITING and self.asked.add(content):
                places.add(parting.pc)
                self.waiting.append(Source(source.entry, content, [], source.depth + 1))
        for content in source.vain:
            self.worker.differ(tries, content, take)
            self.worker.settle(tries, AHEAD)
        self.worker.settle(tries)


class Deeper(Asking):
    """Asks for the compares of an input that came out as nothing new."""

    how, most = "deeper", MOST_SOLVED

    def __init__(self, worker, entry: Entry, deepening: Deepening):
        super().__init__(worker, entry)
        self.deepening = deepening

    def lengthen(self):
        """Leaves the length as it is."""

    def inputs(self) -> Iterator[Tuple[bytes, Optional[Compare]]]:
        return (candidate for candidate in super().inputs() if self.deepening.tried.add(candidate[0]))
