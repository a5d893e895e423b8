"""Where a run that goes on, or back, stops: at breakpoints, watched accesses, errors, and the ends of the run."""
from dataclasses import dataclass

from replaycheck.guest.regions import meets
from replaycheck.looking import TOP

SOFTWARE, HARDWARE, WRITE, READ, ACCESS = range(5)  # the sorts of points, by their numbers in packets
KINDS = {SOFTWARE: ("run",), HARDWARE: ("run",), WRITE: ("write",), READ: ("read",), ACCESS: ("write", "read")}
WORDS = {SOFTWARE: "swbreak:;", HARDWARE: "hwbreak:;", WRITE: "watch:{:x};", READ: "rwatch:{:x};", ACCESS: "awatch:{:x};"}
BEGIN, END = "replaylog:begin;", "replaylog:end;"


@dataclass(frozen=True)
class Point:
    """A breakpoint, or a range whose accesses are watched."""

    sort: int
    address: int
    length: int

    @property
    def is_watched(self):
        return self.sort in (WRITE, READ, ACCESS)

    @property
    def span(self):
        return self.address, min(self.length, TOP - self.address) if self.is_watched else 1

    @property
    def word(self):
        return WORDS[self.sort].format(self.address)


@dataclass(frozen=True)
class Stop:
    """A step at which the run stops, and what the other side is told of it."""

    step: int
    word: str = ""
    errs: bool = False  # whether it is told that the step makes an error


class Goer:
    """Goes on and back in a run. gdb holds that RISC-V stops before a watched access, and makes that step itself, with the points
    taken out: so the run stops at an access that it is to make, and going back at the step after it."""

    def __init__(self, run, alterer):
        self.run, self.alterer, self.points, self.at_errors = run, alterer, [], False
        self.erring = None  # the step of which it was last told that it makes an error

    def add(self, point):
        if point not in self.points:
            self.points.append(point)

    def remove(self, point):
        if point in self.points:
            self.points.remove(point)

    def stop_at_errors(self, is_on):
        self.at_errors, self.erring = is_on, None

    def stopped(self, stop):
        self.run.step, self.erring = stop.step, stop.step if stop.errs else None
        return stop

    def forward(self, within=None):
        """Goes on to the first stop: within a range of addresses, to the first step outside of it."""
        here = self.run.step
        for reach in self.run.reaches():
            edge = min(self.run.limit, here + reach)
            stop = self.first(here, edge, within)
            if stop or edge >= self.run.known_end():
                break
        return self.stopped(stop or Stop(max(here, self.run.end()), END))

    def back(self):
        """Goes back to the last stop."""
        here = self.run.step
        for reach in self.run.reaches():
            edge = max(0, here - reach)
            stop = self.last(here, edge)
            if stop or edge == 0:
                break
        return self.stopped(stop or Stop(0, BEGIN))

    def search(self, way, kind, span, here, edge):
        """The step that a look finds from one on or before it. What is altered before a step counts as written by the step before that."""
        found = [self.run.search(way, kind, span, here, edge)]
        if kind == "write":
            low, high = (here, edge) if way == "next" else (edge, here)
            found += [step - 1 for step, written in self.alterer.writes() if low < step <= high and overlap(span, written)]
        return (min if way == "next" else max)((step for step in found if step is not None), default=None)

    def first(self, here, edge, within):
        """The first stop before a step. An error at a stop of another kind is told when it goes on from there: gdb itself has points for
        single steps, and says nothing of those."""
        found = None
        for point in self.points:
            for kind in KINDS[point.sort]:
                step = self.search("next", kind, point.span, here, found.step if found else edge)
                found = found if step is None else Stop(step, point.word)
        for span in outside(within):  # the step itself is made, wherever it is
            step = self.run.search("next", "run", span, here + 1, found.step if found else edge)
            found = found if step is None else Stop(step)
        if self.at_errors:
            step = self.run.next_error(here + (here == self.erring), found.step if found else min(edge, self.run.end()))
            found = found if step is None else Stop(step, errs=True)
        return found

    def last(self, here, edge):
        """The last stop from a step on. A breakpoint comes before an access behind which it stands: gdb then asks for one step back."""
        found = None
        for point in self.points:
            for kind in KINDS[point.sort]:
                begin = found.step if found else max(0, edge - point.is_watched)
                step = self.search("last", kind, point.span, here, begin)
                found = found if step is None else Stop(step + point.is_watched, point.word)
        if self.at_errors:
            step = self.run.last_error(found.step if found else edge, here)
            found = found if step is None else Stop(step, found.word if found and found.step == step else "", True)
        return found

    def step(self):
        """One step on."""
        here = self.run.step
        if not self.run.registers().runs or here == self.run.limit:
            return self.stopped(Stop(here, END))
        point = self.accessed_in(here)
        return self.stopped(Stop(here, point.word) if point else Stop(here + 1))

    def step_back(self):
        """One step back; from behind the end of the program, to its last step."""
        here = self.run.step if self.run.registers().runs else min(self.run.step, self.run.end())
        if here == 0:
            return self.stopped(Stop(0, BEGIN))
        point = self.accessed_in(here - 1)
        return self.stopped(Stop(here, point.word) if point else Stop(here - 1))

    def accessed_in(self, step):
        """A watched point of which a step makes an access, if there is one."""
        return next((point for point in self.points if point.is_watched and any(
            self.search("next", kind, point.span, step, step + 1) is not None for kind in KINDS[point.sort])), None)


def overlap(one, other):
    """Whether two ranges, each an address and a length, have a byte in common."""
    return meets(one[0], sum(one), other[0], sum(other))


def outside(within):
    """The ranges around one."""
    return [] if within is None else [(0, within[0]), (within[1], TOP - within[1])]
