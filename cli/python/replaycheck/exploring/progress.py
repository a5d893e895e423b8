"""How far a sweep is, on standard error."""
import contextlib
import os
import sys
import time

INTERVAL = 10  # seconds from one line to the next, where standard error is no terminal
SOON = 0.1  # the part of that before which nothing is estimated
ENOUGH = 0.01  # the part of the edits that must have come for an estimate: the first ones come in bursts
LONG = 2  # of how many intervals on the whole is estimated


class Progress:
    """Says how far it is: on a terminal by a text that is overwritten and taken back, elsewhere by a line after each INTERVAL, and by an
    estimate of the whole soon after it has begun, if that is long. So what ends within an interval says nothing there. `edits` is their
    number, or 0 if that isn't known."""

    def __init__(self, edits, what=""):
        self.what, self.edits, self.done, self.begun, self.last, self.is_shown = what, edits, 0, time.monotonic(), 0, False
        self.told, self.is_estimated = self.begun, False

    def add(self, number):
        """Counts edits that have come; 0 where only time has passed."""
        self.done += number
        now = time.monotonic()
        if now - self.last > 0.2 and now - self.begun > min(0.5, SOON * INTERVAL):
            self.last = now
            if sys.stderr.isatty():
                self.is_shown = True
                put(f"\r\x1b[Kexplore: {self.text(now, self.edits)}")
            else:
                self.tell(now)

    def tell(self, now):
        """Writes the lines that are due."""
        is_known = self.edits and self.done >= ENOUGH * self.edits
        if now - self.told >= INTERVAL:
            self.told, self.is_estimated = now, True
            put(f"replaycheck explore: {self.text(now, is_known)}\n")
        elif is_known and not self.is_estimated:
            self.is_estimated = True
            whole = self.edits / self.done * (now - self.begun)
            if whole > LONG * INTERVAL:
                put(f"replaycheck explore: {self.what}{self.edits} edits: some {whole:.0f} s in all\n")

    def text(self, now, says_left):
        rate = self.done / (now - self.begun)
        left = f", {max(0, self.edits - self.done) / rate:.0f} s left" if rate and says_left else ""
        edits = f"{self.done} of {self.edits} edits" if self.edits else f"{self.done} edits"
        return f"{self.what}{edits}, {rate:.0f} a second{left}"

    def end(self):
        if self.is_shown:
            put("\r\x1b[K")
            self.is_shown = False


def put(text):
    """Writes to standard error at once. A sweep doesn't fail because nobody can read how far it is."""
    with contextlib.suppress(OSError):
        os.write(sys.stderr.fileno(), text.encode())
