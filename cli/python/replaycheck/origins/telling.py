"""What is printed of an error's origins."""
import os
import re
import shutil

from replaycheck.places import PROGRAMS, Paths, Places

from .image import in_words
from .search import MANY, marks_of, size_of
from .trials import frames

IN_BLOCK = re.compile(r" Address 0x[0-9a-f]{8} is \d+ bytes (inside|before|after) a block")


class Teller:
    """Writes lines, with the source lines of frames where there is debug information."""

    def __init__(self, search, file, say):
        self.search, self.trials, self.image, self.say = search, search.trials, search.image, say
        has = os.environ.get("ADDR2LINE") or any(map(shutil.which, PROGRAMS))
        self.places = Places(file, Paths()) if has else None

    def lines(self, *lines):
        self.trials.progress.end()
        self.say("".join(f"{line}\n" for line in lines))

    def place(self, address):
        """` (file.c:12)`, or nothing."""
        told = self.places.at(f"0x{address:08x}") if self.places else []
        return f" ({' in '.join(map(str, told))})" if told else ""

    def frame(self, line):
        return line + self.place(int(line[len("   at "):].partition(":")[0], 16))

    # ---- what other reports tell

    def calls(self, step):
        """The calls that a step is in: without access to its instruction, the jump to it is an error."""
        address = self.search.address(step)
        report = self.trials.report(step + 1, [(step, address, address + 4, "noaccess")])
        for index, line in enumerate(report):
            if line.startswith("error ") and line.endswith("stated on the next line"):
                return frames(report, index + 1)
        return [f"   at 0x{address:08x}: {self.image.name(address)}"]

    def block(self, step, address):
        """Where an address lies that a step reads: without access to it, that is an error with a note on it."""
        report = self.trials.report(step + 1, [(step, address, address + 1, "noaccess")])
        notes = [i for i, line in enumerate(report) if line.startswith(f" Address 0x{address:08x} is ")]
        plain = self.trials.report(step + 1)
        new = [i for i in notes if report[i] not in plain] or notes
        return [report[new[-1]], *frames(report, new[-1] + 1)] if new else []

    # ---- parts

    def error(self):
        text, trace = self.search.error
        self.lines(text, *map(self.frame, trace), f" made in step {self.search.step}")

    def origin(self, number, group, others):
        moves = self.search.moves(group, marks_of(others))
        step = group.step - 1
        by = {"frame": f"in step {step} by a new stack frame", "start": "from the start",
              "lost": f"from step {group.step} on: from a register, and it isn't known where that had it from",
              "old": f"before step {group.step} already; --long looks further back",
              "heap": f"in step {step} by {group.heap or 'a call of the heap'}"}
        by["read"] = f"when step {group.step} read them; what made them so isn't known"
        made = by.get(group.made, f"by the line `{group.made}`")
        self.lines("", f"origin {number}: {in_words(group.ranges)}, undefined {made}")
        told = self.block(moves[0][0], group.ranges[0][0]) if group.made in ("heap", "old", "read") else []
        if group.made in ("old", "read") or told and IN_BLOCK.match(told[0]):
            self.lines(*told[:1], *map(self.frame, told[1:]))
        elif group.made in ("heap", "frame", "lost"):
            self.lines(*map(self.frame, self.calls(step)))
        if size_of(group.ranges) > MANY:
            self.lines(" moves of the first byte:")
        self.moves(moves)

    def moves(self, moves):
        """Reads and writes, those of a loop in one line."""
        rows = []
        for move in moves:
            if move is None:
                self.row(rows)
                self.lines(" ..")
                return
            address = self.search.address(move[0])
            again = next((row for row in rows[-2:] if row[0] == address and row[1] == move[1]), None)
            if again:
                again[3] = move[0]
            else:
                rows.append([address, move[1], move[0], move[0], move[2]])
        self.row(rows)

    def row(self, rows):
        for address, verb, first, last, ranges in rows:
            steps = f"step {first}" if first == last else f"steps {first} to {last}"
            where = f"0x{address:08x}: {self.image.name(address)}{self.place(address)}"
            self.lines(f" {steps}: {in_words(ranges)} {verb} by {where}")

    def certificate(self, groups):
        marks, step = sorted(marks_of(groups)), self.search.step + 1
        said = "this mark" if len(marks) == 1 else f"these {len(marks)} marks"
        out = "without it it has" if len(marks) == 1 else "with any of them left out it has"
        self.lines("", f"certificate: with {said} the report at step {step} hasn't this error, and {out}",
                   *(f"mark {at} 0x{low:08x} {high - low} defined" for at, low, high in marks))
