"""A run that is looked at: the step where it is, what holds there, and which other step does something."""
from dataclasses import dataclass
from typing import List, Optional

from replaycheck.guest.regions import USUAL_REGIONS
from replaycheck.options import LAST_STEP
from replaycheck.programs import ISAS
from replaycheck.refusals import with_words
from replaycheck.reports import reports_in
from replaycheck.sessions import Refused, Session

MOST_SEEN = 4096  # bytes of one look at memory
MOST_LINES = 90000  # lines of one session, which takes 100,000
NEAR = (4096, 65536)  # what is near is found without a look at what is far off
ALL = (0, 0xFFFFFFFF)  # a range with nearly all addresses
TOP = 1 << 32
NO_ACCESS, DEFINED = "__", "00"


@dataclass(frozen=True)
class Seen:
    """What the registers were at a step."""

    state: str  # `running`, `exited 0`, `stopped jump`
    pc: int
    values: List[int]
    undefined: List[int]

    @property
    def runs(self):
        return self.state == "running"


@dataclass(frozen=True)
class Control:
    """What a control register was at a step."""

    name: str
    value: int
    undefined: int


@dataclass(frozen=True)
class Block:
    """A block of the heap, with up to three addresses of where it was allocated or, once it is freed, of where it was freed."""

    start: int
    size: int
    is_live: bool
    trace: List[int]


@dataclass(frozen=True)
class Bytes:
    """Bytes of memory, and two digits for the undefined bits of each: NO_ACCESS where there is none."""

    data: bytes
    undefined: str


class Run:
    """The lines of `replaycheck look` on a program, and the step that is looked at. `limit` is the last step that there is."""

    def __init__(self, file, given, supp, isa=ISAS[0], regions=USUAL_REGIONS, limit=LAST_STEP):
        self.files, self.isa, self.regions, self.limit, self.edits = (file, given, supp), isa, regions, limit, []
        self.session: Optional[Session] = None
        self.step = self.chosen = 0
        self.ready()
        self.forget()

    def forget(self):
        """Forgets what was seen, as an edit may have changed it."""
        self.seen_at, self.seen, self.last_step, self.totals = None, None, None, {}
        self.controls_at, self.controls_seen = None, []

    # ---- lines

    def open(self):
        """Begins a session, with the edits and the chosen step of the one before it."""
        lines = [*self.edits, f"goto {self.chosen}"]
        self.session = Session(*self.files, command="look", isa=self.isa, regions=self.regions, limit=self.limit)
        self.lines = len(lines)
        self.session.accept_all(lines)

    def drop(self):
        """Ends the session, if there is one. Another one begins with the next question."""
        session, self.session = self.session, None
        if session is not None:
            session.end()

    def ready(self):
        """Sees to it that there is a session. Another one takes the place of one that has had its lines."""
        if self.session is not None and self.lines >= MOST_LINES:
            self.drop()
        if self.session is None:
            self.open()

    def ask(self, line):
        """The reply to a line of a session."""
        self.ready()
        self.lines += 1
        return self.session.ask(line)

    def accepted(self, line):
        """The reply to a line of a session that must not be refused."""
        rows = self.ask(line)
        if rows[0].startswith("refused "):
            raise Refused(line, rows[0])
        return rows

    def look(self, line):
        """The reply to a look. A session doesn't count it."""
        self.ready()
        rows = self.session.ask(f"look {line}")
        if rows[0].startswith("refused "):
            raise Refused(line, rows[0])
        return rows

    def at(self, step):
        if step != self.chosen:
            self.accepted(f"goto {step}")
            self.chosen = step

    def edit(self, line):
        """Gives a line of a session that edits the run. Gives what it is answered, in words."""
        reply = self.ask(line)[0]
        if reply != "ok":
            return with_words(reply)
        self.edits.append(line)
        self.forget()
        return reply

    # ---- what holds at the step

    def registers(self):
        if self.step != self.seen_at:
            self.at(self.step)
            state, *rows = self.look("registers")
            words = state.split()[1:]
            pairs = [(0, 0)] + [tuple(int(word, 16) for word in row.split()[1:]) for row in rows]
            pc = self.last_pc() if words[0] == "exited" else int(words.pop(), 16)
            self.seen = Seen(" ".join(words), pc, *([pair[i] for pair in pairs] for i in (0, 1)))
            self.seen_at = self.step
        return self.seen

    def last_pc(self):
        """pc of a program that has exited: its call of the environment."""
        self.at(max(0, self.end() - 1))
        state = self.look("registers")[0]
        return int(state.split()[2], 16)

    def controls(self) -> List[Control]:
        """The control registers that a look shows: none in an instruction set without them."""
        if self.step != self.controls_at:
            self.at(self.step)
            rows = [row.split() for row in self.look("controls")]
            self.controls_seen = [Control(row[0], int(row[1], 16), int(row[2], 16)) for row in rows if len(row) == 3]
            self.controls_at = self.step
        return self.controls_seen

    def memory(self, address, length):
        """The bytes of a range, up to 2^32."""
        end = min(address + length, TOP)
        seen = [self.view(begin, min(MOST_SEEN, end - begin)) for begin in range(address, end, MOST_SEEN)]
        return Bytes(b"".join(part.data for part in seen), "".join(part.undefined for part in seen))

    def view(self, address, length):
        self.at(self.step)
        data, undefined = (row.split()[1] for row in self.look(f"memory 0x{address:x} {length}"))
        return Bytes(bytes.fromhex(data), undefined)

    def listed(self, word, start, *more):
        """The lines of a look that lists something, from a place on: each look after the first is from where the one before says that
        there is more."""
        rows, place = [], str(start)
        while place:
            *found, last = self.look(" ".join([word, place, *map(str, more)]))
            rows += found
            place = last.partition(" ")[2]
        return rows

    def stack(self) -> List[int]:
        """The address of the next instruction at the step, and those of the calls that the program is in, newest first: the newest 256."""
        self.at(self.step)
        return [int(word, 16) for word in self.look("stack")[0].split()[1:]]

    def blocks(self) -> List[Block]:
        """The blocks of the heap at the step, in order: also freed ones, as long as their places aren't used again."""
        self.at(self.step)
        rows = [row.split() for row in self.listed("blocks", 0)]
        return [Block(int(row[1], 16), int(row[2]), row[3] == "live", [int(word, 16) for word in row[4:]]) for row in rows]

    # ---- which step does something

    def search(self, way, kind, span, start, bound):
        """The first step from one on and below the bound, or the last one before it and from the bound on, that does this in a
        range, if there is one."""
        if span[1] <= 0 or (bound <= start if way == "next" else bound >= start):
            return None
        self.at(start)
        word, *step = self.look(f"{way} {kind} 0x{span[0]:x} {span[1]} {bound}")[0].split()
        return int(step[0]) if word == "step" else None

    def reaches(self):
        """How far steps are looked for, at first near the one where it is: the last is the whole run."""
        return [*(reach for reach in NEAR if reach < self.limit), self.limit]

    def end(self):
        """The step at which the program runs no more, or the last that there is."""
        if self.last_step is None:
            edge = next((reach for reach in self.reaches()[:-1] if not self.runs_at(reach)), self.limit)
            last = self.search("last", "run", ALL, edge, 0)
            self.last_step = 0 if last is None else last + 1
        return self.last_step

    def known_end(self):
        """A step up to which it can be looked for something: the end of the program, where that was looked for already."""
        return self.limit if self.last_step is None else self.last_step

    def runs_at(self, step):
        return self.search("next", "run", ALL, step, step + 1) is not None

    def report(self, step):
        """The report at a step."""
        self.at(step)
        return next(reports_in(self.accepted("report")))

    # ---- errors

    def total(self, step):
        """How many errors were made before a step, without those that are suppressed. It never falls from one step to the next."""
        if step not in self.totals:
            self.totals[step] = self.report(step).happened
        return self.totals[step]

    def next_error(self, start, end):
        """The first step from one on and below another that makes an error, if there is one."""
        if end <= start or self.total(end) == self.total(start):
            return None
        return last_that(start, end, lambda step: self.total(step) == self.total(start))

    def last_error(self, start, end):
        """The last step from one on and below another that makes an error, if there is one."""
        if end <= start or self.total(end) == self.total(start):
            return None
        return last_that(start, end, lambda step: self.total(step) < self.total(end))

    def errors_of(self, step):
        """The errors that a step makes, in words."""
        before, after = (errors_by_trace(self.report(moment)) for moment in (step, step + 1))
        return [trace[0] for trace, count in after.items() if count > before.get(trace, 0)]


def last_that(low, high, holds):
    """The last step from one on and below another for which something holds that holds for the first and, once it doesn't, for none
    behind."""
    while high - low > 1:
        middle = (low + high) // 2
        low, high = (middle, high) if holds(middle) else (low, middle)
    return low


def errors_by_trace(report):
    """How often a report has each error: its text, and its trace."""
    return {(error.text, *(frame.address for frame in error.trace)): error.count for error in report.errors}
