"""Sessions of `replaycheck tries`. Many lines go ahead of their replies."""
from __future__ import annotations

import os
import select
from collections import deque
from typing import Callable, Deque, Dict, Iterable, List, Optional, Set, Tuple

from replaycheck import replies
from replaycheck.endings import Fault
from replaycheck.refusals import Refused
from replaycheck.sessions import Session

from .news import Outcomes

COMMAND = "tries"  # of the program
MOST_LINES = 90000  # of a session, which takes 100,000 and doesn't count tries
LONGEST = 2040  # bytes of an input, or of a part of one, that a line has room for
AT_ONCE = 1 << 16  # bytes of one read
PATIENCE = 1.0  # seconds after which a wait is interrupted for a look at the clock
PAIRS_KEPT = 4  # compares at one address of those that a reply lists: the first ones and the last ones
MOST_AHEAD = 1000  # lines of the runs that a new session makes first
REFUSED, TRIED, END = (word.encode() for word in (replies.REFUSED, replies.TRIED, replies.END))
FULL = REFUSED + b"1"  # memory ran out
# What a line is, and which replies are passed on: a try, of which those with news, or each; a question for compares; a counted line.
NEWS, EACH, COMPARES, LINE = range(4)


class Pair:
    """A compare of the base's run whose operands differ in another run: its step, its address, its operands in both runs."""

    __slots__ = ("step", "pc", "mine", "others")

    def __init__(self, line: bytes):
        step, pc, *operands = line.split()
        numbers = [int(operand, 16) for operand in operands]
        self.step, self.pc, self.mine, self.others = int(step), int(pc, 16), numbers[:2], numbers[2:]


class Reply:
    """What a try has led to: the number of its outcome, whether that is a new one, and how many sides its run has that no run before it
    had, or had twice."""

    __slots__ = ("outcome", "is_new", "sides", "again")

    def __init__(self, outcome, is_new, sides, again):
        self.outcome, self.is_new, self.sides, self.again = outcome, is_new, sides, again

    @property
    def is_news(self):
        return self.is_new or self.sides > 0 or self.again > 0


class Waiting:
    """A line whose reply is to come. `kept` are steps of compares that are all passed on."""

    __slots__ = ("content", "take", "kind", "kept")

    def __init__(self, content, take, kind, kept=frozenset()):
        self.content, self.take, self.kind, self.kept = content, take, kind, kept


class Tries:
    """Sessions on one program, one after another, for inputs of up to LONGEST bytes, or for those of one greater `length`, of which only
    up to LONGEST bytes may differ from the base. `opened` starts a session for an input; `known` returns the inputs that a new session has
    to try before all others. `outcomes` are those of all sessions. `tick` is called at least once a second."""

    def __init__(self, opened: Callable[[Optional[bytes]], Session], step: int, length: Optional[int], known: Callable[[], Iterable[bytes]],
                 outcomes: Outcomes, tick: Callable[[], None]):
        self.opened, self.step, self.length, self.known, self.outcomes, self.tick = opened, step, length, known, outcomes, tick
        self.session: Optional[Session] = None
        self.base = b""
        self.waiting: Deque[Waiting] = deque()
        self.unsent = bytearray()
        self.lines: List[bytes] = []  # those that have come and aren't taken yet, the first of them last
        self.unread = b""  # a line that isn't whole
        self.part: List[bytes] = []  # the lines of a reply that isn't whole
        self.numbers: List[int] = []  # the numbers of the session's outcomes
        self.dull: Set[bytes] = set()  # replies to tries that have no news
        self.counted = self.runs = 0
        self.is_full = False  # whether the program has run out of memory

    # ---- sessions

    def close(self):
        if self.session is not None:
            self.session.end()
        self.session, self.base = None, b""

    def open(self, content: bytes):
        """Begins a session, which makes the known runs first."""
        self.session = self.opened(content if self.length else None)
        self.base = content if self.length else b""
        os.set_blocking(self.session.child.stdin.fileno(), False)
        self.numbers, self.dull, self.counted, self.is_full = [], set(), 0, False
        self.line(f"goto {self.step}")
        runs = self.runs
        for known in self.known():
            self.prepare(known)
            self.attempt(known, lambda *_: None)
            self.settle(MOST_AHEAD)
        self.settle()
        self.runs = runs
        if self.is_full:
            raise Fault("the program runs out of memory by the inputs of the queue")

    def set_base(self, content: bytes):
        """Makes an input the base. Another session takes the place of one that has no lines left, or has run out of memory."""
        if self.session is not None and (self.counted >= MOST_LINES or self.is_full):
            self.settle()
            self.close()
        if self.session is None:
            self.open(content)
        if content == self.base:
            return
        if self.length is None:
            self.line("bytes is " + content.hex() if content else "bytes is")
        for begin in range(0, self.length or 0, LONGEST):
            part = content[begin:begin + LONGEST]
            if part != self.base[begin:begin + LONGEST]:
                self.line(f"bytes {begin} {part.hex()}")
        self.base = content

    def prepare(self, content: bytes):
        """Sees to it that an input can be tried, whatever the base is."""
        if self.session is None or self.length is not None:
            self.set_base(content)

    # ---- lines

    def line(self, line: str):
        """Sends a line that is counted, and must not be refused."""
        def take(_, reply):
            if reply != b"ok":
                raise Refused(line, reply.decode("ascii", "replace"))
        self.counted += 1
        self.send(line.encode("ascii"), Waiting(b"", take, LINE))

    def send(self, line: bytes, waiting: Waiting):
        self.unsent += line + b"\n"
        self.waiting.append(waiting)

    def fields(self, content: bytes) -> bytes:
        """The fields that say how an input follows from the base."""
        if self.length is None:
            return b" " + content.hex().encode("ascii") if content else b""
        first, last = span(self.base, content)
        return b" %d %s" % (first, content[first:last].hex().encode("ascii"))

    def attempt(self, content: bytes, take: Callable[[bytes, Reply], None], kind=NEWS):
        """Tries an input. `take` gets it with the reply."""
        self.send(b"try" + self.fields(content), Waiting(content, take, kind))

    def differ(self, content: bytes, take: Callable[[bytes, List[Pair]], None], kept=frozenset()):
        """Asks in which compares an input's run differs from the base's. `take` gets the input with the compares: at each address the
        first and the last PAIRS_KEPT, and those at the steps `kept`."""
        self.send(b"differs" + self.fields(content), Waiting(content, take, COMPARES, kept))

    # ---- replies

    def settle(self, most=0):
        """Takes replies until no more than `most` are to come. It takes none beyond that, so that nothing depends on how fast they come."""
        while len(self.waiting) > most:
            if self.lines:
                self.process(most)
            else:
                self.move()

    def move(self):
        """Writes what the pipe takes, and reads what has come."""
        given, told = self.session.child.stdin.fileno(), self.session.child.stdout.fileno()
        readable, writable, _ = select.select([told], [given] if self.unsent else [], [], PATIENCE)
        self.tick()  # before a signal to all processes looks like a fault of the program
        if writable:
            try:
                del self.unsent[:os.write(given, self.unsent)]
            except BlockingIOError:
                pass
            except BrokenPipeError:
                self.unsent.clear()  # the end of its output says why
        if readable:
            content = os.read(told, AT_ONCE)
            if not content:
                raise self.session.ended()
            *self.lines, self.unread = (self.unread + content).split(b"\n")
            self.lines.reverse()

    def process(self, most):
        """Takes lines that have come, as long as more than `most` replies are to come."""
        waiting, lines, dull = self.waiting, self.lines, self.dull
        while lines and len(waiting) > most:
            line = lines.pop()
            if line in dull and waiting[0].kind == NEWS:
                waiting.popleft()
                self.runs += 1
            else:
                self.take(waiting[0], line)

    def take(self, waiting: Waiting, line: bytes):
        """Takes a line of a reply."""
        if waiting.kind == LINE:
            self.waiting.popleft()
            waiting.take(waiting.content, line)
        elif line == FULL:
            self.is_full, self.part = True, []
            self.waiting.popleft()
        elif line.startswith(REFUSED):
            word = "differs" if waiting.kind == COMPARES else "try"
            raise Refused(f"{word} of {len(waiting.content)} bytes", line.decode("ascii", "replace"))
        elif waiting.kind == COMPARES and line == END:
            self.ended(waiting, pairs_in(self.part, waiting.kept))
        elif waiting.kind != COMPARES and line.startswith(TRIED):
            self.ended(waiting, self.tried(line))
        else:
            self.part.append(line)

    def ended(self, waiting: Waiting, reply):
        """Passes on the reply of a run."""
        self.waiting.popleft()
        self.part = []
        self.runs += 1
        waiting.take(waiting.content, reply)

    def tried(self, line: bytes) -> Reply:
        """What the last line of a reply to a try says, and those before it."""
        number, sides, again = map(int, line.split()[1::2])
        is_new = False
        if self.part:
            outcome, is_new = self.outcomes.take(b"\n".join(self.part[1:]))
            self.numbers.append(outcome)
        if not sides and not again:
            self.dull.add(line)
        return Reply(self.numbers[number], is_new, sides, again)


def pairs_in(lines: List[bytes], kept) -> List[Pair]:
    """The compares that a reply lists, without some of those at an address that has many."""
    places: Dict[bytes, List[int]] = {}
    found = {len(lines) - 1} if lines else set()  # by the last one the two runs may part
    for place, line in enumerate(lines):
        step, pc, _ = line.split(b" ", 2)
        places.setdefault(pc, []).append(place)
        if kept and int(step) in kept:
            found.add(place)
    for those in places.values():
        found.update(those[:PAIRS_KEPT], those[-PAIRS_KEPT:])
    return [Pair(lines[chosen]) for chosen in sorted(found)]


def common(one: bytes, other: bytes) -> int:
    """The number of bytes with which both begin."""
    low, high = 0, min(len(one), len(other))
    while low < high:
        middle = (low + high + 1) // 2
        low, high = (middle, high) if one[low:middle] == other[low:middle] else (low, middle - 1)
    return low


def span(one: bytes, other: bytes) -> Tuple[int, int]:
    """From and to where two inputs of one length differ; a byte where they don't."""
    first = common(one, other)
    return (0, 1) if first == len(one) else (first, len(one) - common(one[first:][::-1], other[first:][::-1]))
