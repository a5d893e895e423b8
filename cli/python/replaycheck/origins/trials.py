"""Reports of one run with other marks each time, beside the lines of the user."""
import sys
import time

from replaycheck.endings import Fault
from replaycheck.reports import kind_of
from replaycheck.sessions import MARKS, Session

MOST_LINES, MOST_MARKS = 100000, 4096
MARKING = {**dict.fromkeys(MARKS, 1), "unmark": -1}  # how a line changes the number of marks
AT_ONCE = 200  # so many questions fit into a pipe


class Progress:
    """Says on standard error how far long work is, where that is a terminal."""

    def __init__(self):
        self.begun = self.last = time.monotonic()
        self.is_shown = False

    def tell(self, reports, doing):
        now = time.monotonic()
        if sys.stderr.isatty() and now - self.begun > 1 and now - self.last > 0.2:
            self.last, self.is_shown = now, True
            sys.stderr.write(f"\r\x1b[Korigin: {doing}, {reports} reports")
            sys.stderr.flush()

    def end(self):
        if self.is_shown:
            sys.stderr.write("\r\x1b[K")
            sys.stderr.flush()
            self.is_shown = False


class Trials:
    """A session with the lines of the user. A mark is a step, a first address, the one behind the last, and a kind."""

    def __init__(self, file, given, supp, lines, isa, regions, limit):
        self.words, self.user, self.isa, self.regions, self.limit = (file, given, supp), lines, isa, regions, limit
        self.reports, self.doing, self.progress = 0, "the error", Progress()
        self.open()
        self.first = sum(MARKING.get(line.split(" ")[0], 0) for line in lines)
        self.room = MOST_MARKS - self.first

    def open(self):
        self.session = Session(*self.words, command="look", isa=self.isa, regions=self.regions, limit=self.limit)
        self.marks, self.asked = [], len(self.user)
        for line in self.user:
            self.session.accepted(line)

    def report(self, step, marks=()):
        """The lines of the report at a step with these marks. Those that the last report had too stay as they are."""
        marks = sorted(marks)
        if len(marks) > self.room:
            raise Fault(f"it needs {len(marks)} marks, and there is room for {self.room}")
        lines = self.changes(marks)
        if self.asked + len(lines) + 2 > MOST_LINES:
            self.open_again()
            lines = self.changes(marks)
        self.session.accept_all([*lines, f"goto {step}"])
        self.marks, self.asked, self.reports = marks, self.asked + len(lines) + 2, self.reports + 1
        self.progress.tell(self.reports, self.doing)
        return self.session.accepted("report")

    def addresses(self, first, last):
        """Where the program is before each of some steps, as far as it runs."""
        found = []
        for begin in range(first, last, AT_ONCE):
            self.report(begin)
            end = min(begin + AT_ONCE, last)
            if self.asked + 2 * AT_ONCE > MOST_LINES:
                self.open_again()
            self.asked, self.reports = self.asked + 2 * (end - begin), self.reports + end - begin
            for report in self.session.reports_at(range(begin, end)):
                words = report[1].split(" ")
                if words[1] != "running":
                    return found
                found.append(int(words[2], 16))
        return found

    def blocks_from(self, step, address):
        """Where the first blocks begin, before a step, of those that begin at an address or above, and their sizes."""
        self.make_room()
        self.session.accepted(f"goto {step}")
        self.asked += 1
        rows = [row.split() for row in self.session.accepted(f"look blocks 0x{address:x}")]
        return [(int(row[1], 16), int(row[2])) for row in rows if row[0] == "block"]

    def open_again(self):
        self.session.end()
        self.open()

    def make_room(self):
        """Sees to it that what is asked next fits into one session."""
        if self.asked > MOST_LINES // 2:
            self.open_again()

    def changes(self, marks):
        """The lines that make these marks of those that there are."""
        same = 0
        while same < min(len(marks), len(self.marks)) and marks[same] == self.marks[same]:
            same += 1
        lines = [f"unmark {self.first + i}" for i in reversed(range(same, len(self.marks)))]
        return lines + [f"mark {step} 0x{low:x} {high - low} {kind}" for step, low, high, kind in marks[same:]]


def hangs_on_undefined(text):
    return kind_of(text) in ("Value4", "Cond") or kind_of(text) == "Param" and "uninitialised" in text


def errors_of(report):
    """The errors of a report that hang on undefined bits, each a text and its trace, in order."""
    found = []
    for index, line in enumerate(report):
        text = line.partition(": ")[2]
        if line.startswith("error ") and hangs_on_undefined(text):
            found.append((text, tuple(frames(report, index + 1))))
    return found


def frames(report, index):
    """The lines of a trace that begins at an index."""
    found = []
    while report[index].startswith("   "):
        found.append(report[index])
        index += 1
    return found
