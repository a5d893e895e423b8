"""What an outcome says: its state, its errors and leaks, and which of them the unedited run has not."""
import re
from dataclasses import dataclass
from typing import List

from replaycheck.options import LAST_STEP
from replaycheck.reports import kind_of

FRAME = re.compile(r"   (?:at|by) (0x[0-9a-f]{8}): (.*)")
FRAMES_TOLD = 3
RUNNING = 20  # a run that goes on, where the unedited one ends
RUNS = "running"  # the state of such a run
# The first text that a part begins with says how bad it is.
BADNESS = (("Invalid write", 90), ("Jump ", 85), ("Invalid free", 80), ("Invalid read", 70), ("stopped ", 60),
           ("Syscall ", 55), ("Use of", 50), ("Conditional", 50), ("definitely lost at", 40),
           ("indirectly lost at", 38), ("possibly lost at", 35), ("still reachable at", 30))


@dataclass
class Part:
    """An error, a leak or a stop in one line, and the address that it is told at, if there is one."""

    text: str
    address: str = ""

    @property
    def badness(self):
        return next((bad for begin, bad in BADNESS if self.text.startswith(begin)), 0)


class Outcome:
    """An outcome of a table, by its number. `parts` are its errors and leaks, each once."""

    def __init__(self, number, text):
        self.number, self.lines = number, text.decode("ascii").split("\n")
        self.state = self.lines[0]
        self.written = self.lines[1] if self.lines[1:] and self.lines[1].startswith("output ") else ""
        self.parts: List[Part] = []
        begin = 2 if self.written else 1
        starts = [i for i in range(begin, len(self.lines)) if not self.lines[i].startswith("   ")]
        for start, end in zip(starts, [*starts[1:], len(self.lines)]):
            part = part_of(self.lines[start], self.lines[start + 1:end])
            if part.text not in {met.text for met in self.parts}:
                self.parts.append(part)

    @property
    def is_running(self):
        """Whether the run hasn't ended at the step of the sweep."""
        return self.state == RUNS

    @property
    def has_errors(self):
        """Whether there is any error, which a leak or a stop alone isn't."""
        return any(kind_of(line) for line in self.lines)

    @property
    def told(self):
        """What the run came to, in few words."""
        return ", ".join(filter(None, (self.state, self.written)))

    def news(self, unedited):
        """The errors, leaks and stops that the unedited run has not, the worst first."""
        had = {part.text for part in unedited.parts} | {unedited.state}
        address = self.state.partition(" 0x")[2]
        stop = Part(self.state, address and f"0x{address}")
        found = [part for part in [stop, *self.parts] if part.badness and part.text not in had]
        return sorted(found, key=lambda part: -part.badness)

    def badness(self, unedited):
        """The greater, the worse; 0 where nothing is new."""
        news = self.news(unedited)
        if news:
            return news[0].badness
        return RUNNING if self.is_running and not unedited.is_running else 0


def still_running(step, who):
    """A line that says which runs haven't ended at the step of a sweep, and what to type to see what they do later."""
    return f"still running at step {step}: {who}" + ("; --step N looks further" if step < LAST_STEP else "")


def part_of(text, trace):
    """An error or a leak in one line: its text, and the functions of its first frames."""
    frames = [FRAME.fullmatch(line).groups() for line in trace[:FRAMES_TOLD]]
    if not frames:
        return Part(text)
    names = [address if name == "???" else name for address, name in frames[1:]]
    return Part(", by ".join([f"{text} at {frames[0][0]}: {frames[0][1]}", *names]), frames[0][0])
