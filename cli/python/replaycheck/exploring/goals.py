"""The edits by which a goal is reached."""
import os

from replaycheck.guest.lines import shown

from .outcomes import RUNS, still_running

AT_STEPS = ("skip ", "flip ", "set ")


class Goal:
    """A text with which a line of an outcome begins. The edits are kept in a file: there may be many."""

    def __init__(self, text, merged, room):
        self.text, self.merged, self.known, self.count = text.encode("utf-8", "surrogateescape"), merged, [], 0
        self.path = os.path.join(room, "reached")
        self.file = open(self.path, "w+", encoding="ascii")

    @property
    def shown(self):
        return f"`{shown(self.text)}`"

    def is_reached(self, number):
        while len(self.known) <= number:
            lines = self.merged.outcomes[len(self.known)].split(b"\n")
            self.known.append(any(line.startswith(self.text) for line in lines))
        return self.known[number]

    def add(self, place):
        for value, number in place.edits.items():
            if self.is_reached(number):
                self.count += 1
                self.file.write(f"{place.range.line(place.at, value)}\n")

    def others_running(self):
        """How many edits still run at the step of the sweep and haven't reached it so far."""
        return sum(tally for number, (text, tally) in enumerate(zip(self.merged.outcomes, self.merged.tallies))
                   if text.split(b"\n")[0] == RUNS.encode() and not self.is_reached(number))

    def edits(self, instructions):
        """The edits, a line each; with the instructions of those that alter the machine at a step."""
        self.file.seek(0)
        lines = self.file.read().splitlines()
        instructions.learn(line for line in lines if line.startswith(AT_STEPS))
        for line in lines:
            told = "; ".join(where for _, where in instructions.told(line)) if line.startswith(AT_STEPS) else ""
            yield f"{line}: {told}\n" if told else f"{line}\n"

    def told(self, instructions):
        """The edits, a line each, how many others still run, and the number of the edits."""
        others = self.others_running()
        who = f"{others} other edit{'s' * (others > 1)}"
        rest = f"{still_running(self.merged.head.step, who)}\n" if others else ""
        too = "; the unedited run has one too" if self.is_reached(0) else ""
        return (f"{''.join(self.edits(instructions))}{rest}reached by {self.count} of {self.merged.edits} edits: a line that begins with "
                f"{self.shown}{too}\n")
