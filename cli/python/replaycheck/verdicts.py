"""What a report comes to, by its first lines and its last ones: enough for an exit status, without a parser."""

SUMS = ("definitely lost", "indirectly lost", "possibly lost", "still reachable", "suppressed")
# What options and suppressions call the leaks of a kind.
LEAK_KINDS = {"definitely lost": "definite", "indirectly lost": "indirect", "possibly lost": "possible",
              "still reachable": "reachable"}
# How the line of `look certify` on a clean run begins: if the run has ended or rests in a jump to itself, and if it goes on.
CLEAN, CLEAN_SO_FAR = "clean to step ", "clean up to step "


class Verdict:
    """The step and the state of a report, how many errors there are, and of each kind of leak how many blocks."""

    def __init__(self, lines):
        """Reads them off the lines of a report. Raises IndexError, KeyError or ValueError where the lines are none."""
        self.step, self.state = int(lines[0].split(" ")[1]), lines[1].split(" ")[1]
        self.errors = int(lines[-1].split(" ")[2])
        sums = (line.partition(": ") for line in lines[-1 - len(SUMS):-1])
        blocks = {name: int(told.split(" ")[3]) for name, _, told in sums}
        self.blocks = {name: blocks[name] for name in SUMS}

    @property
    def runs_on(self):
        """Whether the program has neither exited nor stopped: what it does after the step isn't checked."""
        return self.state == "running"

    def fails(self, leaks_that_count):
        """Whether there is an error, a leak of kinds that count as errors, listed or not, or anything but an exit."""
        lost = any(self.blocks[kind] for kind, name in LEAK_KINDS.items() if name in leaks_that_count)
        return self.errors > 0 or lost or self.state != "exited"
