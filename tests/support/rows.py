"""What tests of tools have in common: rows that pass or fail, and texts that are told in turn."""
import re
import signal

PROGRESS = re.compile(r"^replaycheck explore: .* (?:a second|s left|in all)\n", re.MULTILINE)
SIGNALS = (signal.SIGINT, signal.SIGTERM, signal.SIGHUP)


class Rows:
    """Counts what passes, and tells what fails."""

    def __init__(self, test):
        self.test, self.passed, self.failed = test, 0, 0

    def row(self, label, faults):
        faults = list(faults)
        if faults:
            print(f"{self.test}: {label}", *faults[:6], sep="\n  ")
        self.failed += bool(faults)
        self.passed += not faults

    def left_out(self, label, missing):
        print(f"{self.test}: {label}: left out, there is no {missing}")

    def end(self):
        """Prints the last line. Gives the exit status."""
        print(f"{self.passed} passed, {self.failed} failed")
        return int(self.failed > 0)


def default_signals():
    """Takes back that a shell without job control, or nohup, has signals ignored."""
    for number in SIGNALS:
        signal.signal(number, signal.SIG_DFL)


def in_turn(told, texts):
    """The first text that isn't told behind those before it."""
    at = 0
    for text in texts:
        at = told.find(text, at)
        if at < 0:
            return [f"not told in turn: {text!r}, in\n{told}"]
        at += len(text)
    return []


def without_progress(said):
    """What was printed, without the lines on how far a sweep is, which it has on a busy machine."""
    return PROGRESS.sub("", said)


def agrees(expected, printed):
    """Whether a text is the expected lines, of which `...` is any lines."""
    pattern = "".join(r"(?:.*\n)*?" if line == "..." else re.escape(line) + "\n" for line in expected)
    return re.fullmatch(pattern, printed) is not None
