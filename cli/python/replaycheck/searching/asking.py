"""The first work on an entry of the queue: which compares depend on which of its bytes, and the inputs that follow from that."""
from __future__ import annotations

import itertools
from functools import partial
from typing import FrozenSet, Iterator, List, Optional, Tuple

from .compares import Compare, Compares, Guard
from .tries import EACH, LONGEST, NEWS, Pair, Reply

MOST_ASKED = 1024  # bytes of an entry that are changed, from its begin on
MORE = 24  # zero bytes after the end, which a program may read or not
MOST_ROUNDS = 4  # repairs of one input
MOST_SOLVED = 4096  # inputs of one entry
MOST_VAIN, MOST_VAIN_BYTES = 256, 1 << 16  # of them that are kept where nothing came of them
CHANGE = 1  # the bit of a byte that is changed
AHEAD = 64  # questions that go ahead of their replies
Kept = FrozenSet[int]


class Repairs:
    """Puts compares of an entry right again in inputs made of it, so that they come out equal: a magic number, a length, a sum. `kept` are
    offsets of bytes that a repair leaves as they are: it would only take back what was changed."""

    def __init__(self, worker, entry, tries):
        self.worker, self.tries = worker, tries
        self.guards: List[Guard] = entry.guards
        self.steps = frozenset(guard.step for guard in self.guards)

    def begin(self, content: bytes, how: str, unrepaired="", then=None, kept: Kept = frozenset()):
        """Tries an input once it is repaired. One that needs no repair is tried if `unrepaired` says how it was made. `then` gets the input
        with each reply, if it is there."""
        self.ask(content, partial(self.tried, how, unrepaired, then), kept)

    def ask(self, content: bytes, then, kept: Kept, rounds=0):
        """Repairs an input. `then` gets it with the compares that differ, and how many repairs it needed."""
        self.worker.differ(self.tries, content, partial(self.replied, then, kept, rounds), self.steps)

    def replied(self, then, kept: Kept, rounds: int, content: bytes, pairs: List[Pair]):
        if rounds < MOST_ROUNDS:
            made = self.repaired(content, pairs, kept)
            if made is not None:
                self.ask(made, then, kept, rounds + 1)
                return
        then(content, pairs, rounds)

    def repaired(self, content: bytes, pairs: List[Pair], kept: Kept):
        """The input with the first compare put right that has to be."""
        found = {differing.step: differing for differing in pairs}
        for guard in self.guards:
            pair = found.get(guard.step) if kept.isdisjoint(guard.parts.values()) else None
            made = guard.repaired(content, pair) if pair and pair.others[0] != pair.others[1] else None
            if made is not None and made != content and len(made) <= self.worker.most:
                return made
        return None

    def tried(self, how: str, unrepaired: str, then, content: bytes, _, rounds: int):
        if rounds or unrepaired:
            self.worker.attempt(self.tries, content, how if rounds else unrepaired, then, EACH if then else NEWS)


class Asking:
    """Asks for the compares of an entry, and tries what follows. `vain` are inputs with another compare that come out as nothing new."""

    how, most = "compare", MOST_SOLVED

    def __init__(self, worker, entry):
        self.worker, self.entry, self.comparisons = worker, entry, worker.comparisons
        self.tries = worker.tries_for(entry.content)
        self.content = entry.content
        self.parting: List[int] = []  # the bytes whose change leads elsewhere
        self.longer: List[bytes] = []  # the input with zero bytes after it, where these lead elsewhere
        self.vain: List[bytes] = []

    def work(self):
        self.tries.set_base(self.entry.content)
        self.lengthen()
        self.tries.set_base(self.content)
        self.compares = Compares(self.content, self.comparisons)
        self.change_each()
        self.entry.guards, self.entry.end = self.compares.guards(), self.compares.end()
        self.repairs = Repairs(self.worker, self.entry, self.tries)
        if self.repairs.guards:
            self.change_repaired()
        for content in self.longer:
            self.repairs.begin(content, "repair", self.how, self.tried)
        for token in self.compares.tokens():
            self.worker.mutations.add(token)
        self.solve()

    def lengthen(self):
        """Appends zero bytes to the input if they don't change which way the run takes: compares may depend on them."""
        longer = self.content + bytes(MORE)
        if self.tries.length is None and len(longer) <= min(self.worker.most, LONGEST):
            self.worker.attempt(self.tries, longer, self.how)
            self.worker.differ(self.tries, longer, self.lengthened)
            self.worker.settle(self.tries)

    def lengthened(self, content: bytes, pairs: List[Pair]):
        if self.comparisons.parting(pairs) is None:
            self.content = content
        else:
            self.longer.append(content)

    # ---- which compares depend on which bytes

    def changed(self, offset: int) -> bytes:
        made = bytearray(self.content)
        made[offset] ^= CHANGE
        return bytes(made)

    def change_each(self):
        """Changes a bit of each byte, and the length."""
        for offset in range(min(len(self.content), MOST_ASKED)):
            self.worker.differ(self.tries, self.changed(offset), partial(self.replied, offset))
            self.worker.settle(self.tries, AHEAD)
        for longer in self.longer_by_one():
            self.worker.differ(self.tries, longer, lambda _, pairs: self.compares.add_longer(pairs))
        self.worker.settle(self.tries)

    def longer_by_one(self) -> List[bytes]:
        has_room = self.tries.length is None and len(self.content) < min(self.worker.most, LONGEST)
        return [self.content + (self.content[-1:] or b"\0")] if has_room else []

    def replied(self, offset: int, content: bytes, pairs: List[Pair]):
        self.compares.add(offset, content[offset] - self.content[offset], pairs)
        if self.comparisons.parting(pairs) is not None:
            self.parting.append(offset)

    def change_repaired(self):
        """Changes bytes again by which a compare isn't equal any more, and the length, with that put right: there may be others after
        it."""
        for offset in self.parting:
            self.repairs.ask(self.changed(offset), partial(self.repaired, offset), frozenset([offset]))
            self.worker.settle(self.tries, AHEAD)
        for longer in self.longer_by_one():
            self.repairs.ask(longer, self.repaired_longer, frozenset())
        self.worker.settle(self.tries)

    def repaired(self, offset: int, content: bytes, pairs: List[Pair], rounds: int):
        """Adds what the change of a byte moves after a compare that was put right."""
        if rounds:
            self.compares.add(offset, content[offset] - self.content[offset], pairs)

    def repaired_longer(self, _, pairs: List[Pair], rounds: int):
        if rounds:
            self.compares.add_longer(pairs)

    # ---- inputs that follow

    def inputs(self) -> Iterator[Tuple[bytes, Optional[Compare]]]:
        """The inputs to try, each with the compare that it is solved for."""
        other = self.compares.without_idle(MOST_ASKED)
        if self.tries.length is None and other != self.content:
            yield other, None
        for made, compare in self.compares.solved(self.worker.most):
            if self.tries.length is None or len(made) == self.tries.length:
                yield made, compare

    def solve(self):
        for made, compare in itertools.islice(self.inputs(), self.most):
            self.worker.attempt(self.tries, made, self.how, partial(self.solved, compare), EACH)
            self.worker.settle(self.tries, AHEAD)
        self.worker.settle(self.tries)

    def solved(self, compare: Optional[Compare], content: bytes, reply: Reply):
        """A solved input that leads to nothing new may need a repair, or have another value in a register."""
        if reply.is_news:
            return
        if self.repairs.guards:
            kept = frozenset(at for at, (one, other) in enumerate(zip(content, self.content)) if one != other)
            self.repairs.ask(content, self.repaired_solved, kept)
            return
        if compare and self.comparisons.has_open_value(compare.pc):
            self.worker.differ(self.tries, content, lambda *_: None)
        self.tried(content, reply)

    def repaired_solved(self, content: bytes, _, rounds: int):
        if rounds:
            self.worker.attempt(self.tries, content, "repair", self.tried, EACH)
        else:
            self.keep(content)

    def tried(self, content: bytes, reply: Reply):
        if not reply.is_news:
            self.keep(content)

    def keep(self, content: bytes):
        """Keeps an input that came out as nothing new."""
        if len(self.vain) < min(MOST_VAIN, MOST_VAIN_BYTES // max(1, len(content))):
            self.vain.append(content)
