"""The work of one process of a search: what is tried, in which order, and what of it enters the queue."""
from __future__ import annotations

import contextlib
import os
import time
from dataclasses import dataclass
from functools import partial
from typing import Callable, Dict, Iterator, List, Optional, Set, Tuple

from replaycheck.exploring.outcomes import RUNS
from replaycheck.guest.code import Code
from replaycheck.sessions import Session

from .asking import AHEAD, Asking, Repairs
from .deepening import Deepening
from .entries import Entry, Folders, made_of, name_of, taken_from, write
from .leaving import Leaving
from .mutations import Mutations
from .news import News, Outcomes
from .outcomes import Comparisons
from .shares import Share
from .shortening import Shortening
from .tries import EACH, LONGEST, NEWS, Pair, Reply, Tries, common

TURN = 512  # tries of an entry before the next one's
REPAIRED = 3  # one of this number of mutated inputs is repaired
QUIET = 20000  # tries without news after which each value of a byte is tried, each token at each place, and cuts
SWEPT, PLACED = 4, 512  # bytes of which each value, and tries of tokens and cuts, that are tried then in a turn
MOST_PLACED = 256  # tokens of each place
CUTS = (1, 2, 4, 8)  # bytes that are cut at a place, or repeated
MOST_SESSIONS = 4  # for lengths that lines have no room for
SECOND = 1.0


class Over(Exception):
    """The time or the tries of the search are used up, or a signal ends it."""


@dataclass
class Plan:
    """What all workers of a search are given. `path` is the folder of all searches, and `own` that of this one; `found` are the findings
    that it has already. `first_seed` is the number of the first file that this search has added for a seed, and `first` that of the next
    file. `until` is the time at which the search ends, `parent` the process that takes what is found."""

    opened: Callable[[Optional[bytes]], Session]
    code: Code
    step: int
    seeds: List[bytes]
    tokens: List[bytes]
    most: int
    goal: Optional[bytes]
    runs: Optional[int]
    seed: int
    until: float
    path: str
    own: str
    found: List[str]
    first_seed: int
    first: int
    parent: int


class Worker:
    """One worker of `count`. `tell` gets what the first process has to know: a kind and values."""

    def __init__(self, plan: Plan, place: int, count: int, tell: Callable):
        self.plan, self.place, self.count, self.tell = plan, place, count, tell
        self.most, self.code = plan.most, plan.code
        self.mutations = Mutations(plan.seed * count + place, plan.most, plan.tokens)
        self.folders = Folders(plan.path, plan.own, plan.most)
        self.news = News(plan.goal, plan.found)
        self.entries: List[Entry] = []
        self.known: Dict[bytes, Optional[Entry]] = {}
        self.outcomes = Outcomes(plan.goal)
        self.comparisons = Comparisons(plan.code)
        self.sessions: Dict[Optional[int], Tries] = {}
        self.next, self.left, self.is_over = plan.first + place, share(plan.runs, place, count), False
        self.runs = self.quiet_since = 0
        self.deepening, self.sweeps = Deepening(self), Share(lambda: self.all_runs)
        self.fresh: List[Tuple[bytes, Reply, str, int]] = []  # each with the number of its try
        self.to_shorten: List[Tuple[bytes, str]] = []
        self.sided: Set[bytes] = set()  # the seeds with sides that none before them had
        self.told_at = 0.0

    # ---- tries

    def tries_for(self, content: bytes) -> Tries:
        """The session for inputs of a length."""
        length = len(content) if len(content) > LONGEST else None
        if length not in self.sessions:
            if len(self.sessions) > MOST_SESSIONS:
                self.drop(next(session for session in self.sessions if session is not None))
            known = partial(self.known_of, length)
            self.sessions[length] = Tries(self.plan.opened, self.plan.step, length, known, self.outcomes, self.tick)
        return self.sessions[length]

    def drop(self, length):
        self.sessions[length].settle()
        self.runs += self.sessions[length].runs
        self.sessions.pop(length).close()

    def known_of(self, length: Optional[int]) -> List[bytes]:
        """The inputs of the queue that sessions for a length have tried."""
        return [entry.content for entry in self.entries if (len(entry.content) if len(entry.content) > LONGEST else None) == length]

    def spend(self) -> bool:
        """Whether there is a run left; it is spent then."""
        if self.left is not None:
            if not self.left:
                self.is_over = True
                return False
            self.left -= 1
        return True

    def attempt(self, tries: Tries, content: bytes, how: str, then=None, kind=NEWS, is_kept=False):
        """Tries an input that follows from the entry at work. One that `is_kept` will enter the queue, whatever comes of it."""
        if self.spend():
            origin = made_of(self.at_work, how) if self.at_work else how
            tries.attempt(content, partial(self.judge, origin, then, is_kept), kind)

    def differ(self, tries: Tries, content: bytes, take, kept=frozenset()):
        """Asks for the compares of an input that follows from the entry at work. It will enter the queue if one of them puts another value
        into a register."""
        if self.spend():
            tries.differ(content, partial(self.compared, tries, take), kept)

    def compared(self, tries: Tries, take, content: bytes, pairs: List[Pair]):
        if self.comparisons.take(pairs):
            self.attempt(tries, content, "value", kind=EACH, is_kept=True)
        take(content, pairs)

    def settle(self, tries: Tries, most=0):
        tries.settle(most)
        self.keep_fresh()
        if self.is_over:
            raise Over

    def judge(self, origin: str, then, is_kept: bool, content: bytes, reply: Reply):
        """Takes the reply to a try. An input with news will enter the queue."""
        if (reply.is_news or is_kept) and content not in self.known:
            self.known[content] = None
            self.fresh.append((content, reply, origin, self.all_runs))
        if then is not None:
            then(content, reply)

    @property
    def all_runs(self) -> int:
        return self.runs + sum(session.runs for session in self.sessions.values())

    # ---- the queue

    def keep_fresh(self):
        """Takes inputs with news to the queue, and reports their findings."""
        if self.fresh and os.getppid() != self.plan.parent:
            raise Over  # nobody takes what it finds
        while self.fresh:
            content, reply, origin, runs = self.fresh.pop(0)
            entry = self.known[content] = Entry(content, self.next, True)
            entry.has_sides = reply.sides > 0
            name = name_of(self.next, origin, reply.sides > 0)
            write(self.folders.own, name, content)
            self.folders.seen.setdefault(self.folders.own, set()).add(name)
            self.next += self.count
            self.entries.append(entry)
            self.quiet_since = self.all_runs
            self.tell("entry", name)
            self.tell_state()
            self.find(content, reply, runs)

    def find(self, content: bytes, reply: Reply, runs: int):
        """Reports what is found by an input, and after how many runs."""
        for part in self.news.new(reply.outcome, self.outcomes.texts[reply.outcome]):
            self.tell("finding", content.hex(), part.text, part.address, runs)
            self.to_shorten.append((content, part.text))

    def shorten(self, content: bytes, finding: str):
        """Makes a finding's input shorter. What was reached is reported where the search ends meanwhile, too."""
        entry = self.known.get(content) or Entry(content, None, False)
        self.ask(entry)
        tries = self.tries_for(content)
        tries.set_base(content)
        work = Shortening(content, self.plan.seeds[0], partial(self.held, Repairs(self, entry, tries), finding))
        try:
            work.run()
        finally:
            if work.content != content:
                self.tell("shorter", work.content.hex(), finding)

    def held(self, repairs: Repairs, finding: str, content: bytes) -> Optional[bytes]:
        """An input with which a finding stays: this one, or it with compares put right."""
        found: List[bytes] = []

        def take(made, reply):
            if self.has(reply.outcome, finding):
                found.append(made)
        self.attempt(repairs.tries, content, "shorter", take, EACH)
        self.settle(repairs.tries)
        if not found and repairs.guards:
            repairs.begin(content, "shorter", then=take)
            self.settle(repairs.tries)
        return found[0] if found else None

    def has(self, number: int, finding: str) -> bool:
        self.news.learn(number, self.outcomes.texts[number])
        return self.news.has(number, finding)

    # ---- files that are there, and that come

    def begin(self):
        """Tries the seeds, and then all files of the folder. What seeds have is no finding."""
        for content in self.plan.seeds:
            tries = self.tries_for(content)
            tries.prepare(content)
            self.attempt_known(tries, content, self.take_seed)
            tries.settle()
        if self.place == 0:
            self.tell("seeds", sorted({part.text for parts in self.news.parts.values() for part in parts}))
        for folder, number, content in self.folders.new():
            if folder == self.folders.own:
                is_own = (number or 0) % self.count == self.place
                is_seed = number is not None and number >= self.plan.first_seed
                self.take_own(Entry(content, number, is_own and is_seed, is_own), self.place == 0)
            elif self.place == 0:
                self.take_other(content, taken_from(self.folders.name(folder), number))
        for tries in list(self.sessions.values()):
            self.settle(tries)

    def take_seed(self, content: bytes, reply: Reply):
        self.news.skip(reply.outcome, self.outcomes.texts[reply.outcome])
        if reply.sides:
            self.sided.add(content)

    def attempt_known(self, tries: Tries, content: bytes, take):
        """Tries an input of the queue, which is no new one."""
        if self.spend():
            tries.attempt(content, take, EACH)

    def take_own(self, entry: Entry, finds: bool):
        """Takes an input of the search's own folder: a seed, or what an earlier search or another worker has found."""
        content = entry.content
        if content in self.known:
            return
        self.known[content] = entry
        self.entries.append(entry)
        tries = self.tries_for(content)
        tries.prepare(content)

        def take(_, reply):
            entry.has_sides = reply.sides > 0 or content in self.sided
            if finds:
                self.find(content, reply, self.all_runs)
            else:
                self.news.skip(reply.outcome, self.outcomes.texts[reply.outcome])
        self.attempt_known(tries, content, take)
        self.settle(tries, AHEAD)

    def take_other(self, content: bytes, origin: str):
        """Takes an input that another search has found, if it is news here, too."""
        if content not in self.known:
            self.at_work = None
            tries = self.tries_for(content)
            tries.prepare(content)
            self.attempt(tries, content, origin)
            self.settle(tries)

    def look_around(self):
        """Reads what other workers and other searches have found."""
        for folder, number, content in self.folders.new():
            if folder == self.folders.own:
                self.take_own(Entry(content, number, False, False), False)
            elif self.place == 0:
                self.take_other(content, taken_from(self.folders.name(folder), number))

    # ---- the order of work

    def tick(self):
        """Looks at the clock, and for a signal. They end the search, and choose nothing in it."""
        now = time.monotonic()
        if Leaving.is_on or now >= self.plan.until or os.getppid() != self.plan.parent:
            raise Over
        if now - self.told_at >= SECOND:
            self.told_at = now
            self.tell_state()

    def tell_state(self):
        waiting = sum(not entry.taken for entry in self.entries)
        at = self.entries.index(self.at_work) if self.at_work in self.entries else 0
        cycles = min((entry.taken for entry in self.entries), default=0)
        runs_on = all(text.split(b"\n", 1)[0] == RUNS.encode() for text in self.outcomes.texts)
        self.tell("state", self.all_runs, waiting, at, cycles, runs_on)

    at_work: Optional[Entry] = None

    def work(self):
        try:
            self.begin()
            looked_at = time.monotonic()
            while True:
                self.tick()  # a turn may have nothing to try
                self.turn()
                if time.monotonic() - looked_at >= SECOND:
                    self.look_around()
                    looked_at = time.monotonic()
        except Over:
            if self.is_over:
                self.finish()
        self.keep_fresh()
        self.tell_state()
        for tries in self.sessions.values():
            tries.close()

    def finish(self):
        """Takes the replies that are to come, as long as there is time."""
        with contextlib.suppress(Over):
            for tries in list(self.sessions.values()):
                tries.settle()

    def turn(self):
        """Does the next piece of work."""
        if self.to_shorten:
            self.shorten(*self.to_shorten.pop(0))
            return
        entry = next((entry for entry in reversed(self.entries) if entry.is_new and not entry.is_asked), None)
        if entry is not None:
            self.ask(entry)
            return
        if self.deepening.is_due:
            self.deepening.turn()
            return
        entry = min(reversed(self.entries), key=lambda queued: queued.rank)
        entry.taken += 1
        self.at_work = entry
        if entry.is_own or entry.taken > 1:
            self.ask(entry)
        tries = self.tries_for(entry.content)
        tries.set_base(entry.content)
        if self.all_runs - self.quiet_since >= QUIET and self.sweeps.has_room:
            with self.sweeps.work():
                self.sweep(tries, entry)
        self.mutate(tries, entry)

    def ask(self, entry: Entry):
        """Goes to work on an entry: asks for its compares, unless that is done."""
        self.at_work = entry
        if not entry.is_asked:
            entry.is_asked = True
            asking = Asking(self, entry)
            asking.work()
            self.deepening.add(entry, asking)

    def mutate(self, tries: Tries, entry: Entry):
        """Tries mutated inputs of an entry, in the order of the first changed byte: the program keeps the machine that reads it."""
        repairs, made, below = Repairs(self, entry, tries), self.mutations.mutated, self.mutations.below
        contents = [made(entry.content, self.entries[below(len(self.entries))].content[:LONGEST], entry.end) for _ in range(TURN)]
        for number, content in enumerate(sorted(contents, key=partial(common, entry.content))):
            if content == entry.content or content in self.known:
                continue
            if repairs.guards and not below(REPAIRED):
                repairs.begin(content, "repair", "havoc")
            else:
                self.attempt(tries, content, "havoc")
            if not number % AHEAD:
                self.settle(tries, AHEAD)
        self.settle(tries)

    def sweep(self, tries: Tries, entry: Entry):
        """Tries each value of some bytes of an entry, and tokens and cuts at some places, from where the last turn ended."""
        for number, content in enumerate(self.swept(entry)):
            self.attempt(tries, content, "sweep")
            if not number % AHEAD:
                self.settle(tries, AHEAD)
        if tries.length is None:
            for number, content in enumerate(self.placed(entry)):
                self.attempt(tries, content[:self.most], "token")
                if not number % AHEAD:
                    self.settle(tries, AHEAD)
        self.settle(tries)

    @staticmethod
    def swept(entry: Entry) -> Iterator[bytes]:
        begin, content = entry.swept, entry.content
        entry.swept += SWEPT
        for at in range(begin, min(begin + SWEPT, len(content))):
            for value in range(256):
                if value != content[at]:
                    yield content[:at] + bytes([value]) + content[at + 1:]

    def placed(self, entry: Entry) -> Iterator[bytes]:
        content, count = entry.content, 0
        while entry.placed <= len(content) and count < PLACED:
            at = entry.placed
            entry.placed += 1
            for made in self.placed_at(content, at):
                count += 1
                yield made

    def placed_at(self, content: bytes, at: int) -> Iterator[bytes]:
        if 0 < at < len(content):
            yield content[:at]
        for size in CUTS:
            if at + size <= len(content):
                yield content[:at] + content[at + size:]
                yield content[:at + size] + content[at:]
        for token in self.mutations.tokens[:MOST_PLACED]:
            yield content[:at] + token + content[at:]


def share(runs: Optional[int], place: int, count: int) -> Optional[int]:
    """The runs of a worker's of all."""
    return None if runs is None else runs // count + (place < runs % count)
