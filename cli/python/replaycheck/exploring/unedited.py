"""The unedited run of a sweep: how much of the input it reads, where it ends, and where the first edit shows. From these the step of the
sweep follows."""
from replaycheck.looking import Run, last_that
from replaycheck.options import LAST_STEP, USUAL_STEP

TIMES, LEAST = 4, 10000  # an edited run that needs more steps than this many times those of the unedited one hangs, mostly
MORE = TIMES - 1  # of the steps from the first edit on, where a long part of the run comes before it
USES = ("run", "read", "write")  # what a step does with a word of which it isn't the same whether it is edited


class Unedited:
    """The unedited run, at which one session looks, up to a limit. The session ends with the block of `with`.

    # Errors

    `Ended`, if the program rejects a file."""

    def __init__(self, program, given, supp, isa, regions, limit=LAST_STEP):
        self.run = Run(program, given, supp, isa, regions, limit)

    def __enter__(self):
        return self

    def __exit__(self, *_):
        self.run.drop()

    def end(self):
        """Returns the step at which the run has ended; None if it still runs at the last step that there is."""
        self.run.step = self.run.end()
        return None if self.run.registers().runs else self.run.step

    def bytes_read(self, step):
        """Returns the number of bytes of the input that the run has read at a step."""
        self.run.at(step)
        return int(self.run.look("input")[0].split()[1])

    # ---- the first step whose outcome an edit may change, or the end of the run

    def first_read(self, offset, end):
        """Returns the step that reads the byte of the input at an offset."""
        if self.bytes_read(end) <= offset:
            return end
        return last_that(0, end, lambda step: self.bytes_read(step) <= offset)

    def first_use(self, address, length, end):
        """Returns the step that first uses one of some bytes of the program."""
        for kind in USES:
            step = self.run.search("next", kind, (address, length), 0, end)
            end = end if step is None else step
        return end

    def first_altered(self, first, code, unit, end):
        """Returns the first step that is altered of those from one on: only where pc is in a range of addresses, if there is one."""
        if first >= end or code is None:
            return min(first, end)
        step = self.run.search("next", "run", (code[0], code[1] - code[0] + unit), first, end)
        return end if step is None else step


def times_the_end(end, run="the unedited run", limit=LAST_STEP):
    """Returns the step of runs for which none was asked, by the end of the unedited run, and a line that says why. `run` is what that run
    is called."""
    step = min(limit, max(LEAST, TIMES * end))
    bound = "" if step == TIMES * end else f", at least {LEAST}" if step == LEAST else f", at most {limit}"
    return step, f"step {step} by default: {TIMES} times the {end} steps of {run}{bound}"


def default_step(end, first_shown, limit=LAST_STEP):
    """Returns the step of a sweep for which none was asked, and a line that says why: by the end of its unedited run, None where that isn't
    known, and by the first step whose outcome an edit may change, which `first_shown` finds up to that end. What comes before that step
    isn't executed again for each edit."""
    if end is None:
        step = min(USUAL_STEP, limit)
        return step, f"step {step} by default: the unedited run doesn't end by step {limit}"
    if MORE * end <= LEAST:
        return times_the_end(end, limit=limit)
    first = first_shown(end)
    more = max(MORE * (end - first), LEAST)
    if more == MORE * end:
        return times_the_end(end, limit=limit)
    step = min(limit, max(LEAST, end + more))
    why = f"{LEAST} more than the {end} steps of the unedited run" if more == LEAST else (
        f"the {end} steps of the unedited run and {MORE} times the {end - first} from the first edit on")
    return step, f"step {step} by default: {why}" + (f", at most {limit}" if step < end + more else "")
