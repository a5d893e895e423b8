"""The summary of a sweep."""
import os
import shutil

from replaycheck.endings import Fault
from replaycheck.guest.lines import shown_name
from replaycheck.places import PROGRAMS, Paths, Places

from .outcomes import Outcome, still_running

INDENT = " " * 13
SUPPRESSIONS = 2  # the place of the suppressions among the files of a table's head
WIDTHS = 26, 44  # the least and the greatest width of the column of first edits
WIDE = 66  # the greatest where an edit has two lines


def counted(number, one, many=""):
    """A number with its noun."""
    return f"{number} {one if number == 1 else many or one + 's'}"


def byte_told(value):
    """A byte as hexadecimal digits, and as a character where it is a printable one."""
    return f"0x{value:02x}" + (f" '{chr(value)}'" if 32 <= value < 127 else "")


class SourceLines:
    """Source lines of addresses, where the program's file has them and an addr2line is there that reads it."""

    def __init__(self, file):
        has = file and (os.environ.get("ADDR2LINE") or any(map(shutil.which, PROGRAMS)))
        self.places = Places(file, Paths()) if has else None

    def behind(self, address):
        """` (file.c:12)`, or nothing."""
        told = self.places.at(address) if self.places and address else []
        return f" ({shown_name(' in '.join(map(str, told)))})" if told else ""

    def learn(self, addresses):
        try:
            if self.places:
                self.places.learn(list(filter(None, addresses)))
        except Fault:
            self.places = None

    def told(self, part):
        """A part with the source line of its first frame."""
        before, by, callers = part.text.partition(", by ")
        return before + self.behind(part.address) + by + callers


class Summary:
    """What a merged table says, in words. `before` gives the value that stood at a place, or None. `step_note` says why
    the sweep has its step, if that is known. `instructions` has those at the steps of alterations. `executed` is a line on what the runs
    execute, if that is known."""

    def __init__(self, merged, title, before, sources, notes=(), step_note="", instructions=None, executed=""):
        self.merged, self.title, self.before, self.sources = merged, title, before, sources
        self.instructions, self.executed = instructions, executed
        self.notes, self.step_note = notes, step_note
        self.outcomes = [Outcome(number, text) for number, text in enumerate(merged.outcomes)]
        self.unedited = self.outcomes[0]
        self.news = [outcome.news(self.unedited) for outcome in self.outcomes]
        self.order = [0, *sorted(range(1, len(self.outcomes)), key=self.weight)]
        # How wide the column of first edits is.
        has_two = any("; " in str(value) for _, _, value, _ in merged.firsts.values())
        self.width = min(WIDE if has_two else WIDTHS[1], max(WIDTHS[0], *(len(self.first(number)) for number in self.order)))
        sources.learn([part.address for outcome in self.outcomes for part in outcome.parts] + [
            f"0x{at:08x}" for one_range, at, *_ in merged.firsts.values() if one_range.kind == "words"])
        if instructions:
            instructions.learn(value for one_range, _, value, _ in merged.firsts.values() if one_range.kind == "steps")

    def weight(self, number):
        return (-self.outcomes[number].badness(self.unedited), -self.merged.tallies[number],
                self.merged.firsts[number][3])

    @property
    def is_new(self):
        return any(self.news)

    # ---- new errors, leaks and stops

    def finds(self):
        """Each new part, how many edits lead to it, and the outcome that has the first of them; the worst first."""
        found = {}
        for number in self.order[1:]:
            for part in self.news[number]:
                one = found.setdefault(part.text, [part, 0, number])
                one[1] += self.merged.tallies[number]
                if self.merged.firsts[number][3] < self.merged.firsts[one[2]][3]:
                    one[2] = number
        return sorted(found.values(), key=lambda find: (-find[0].badness, self.merged.firsts[find[2]][3]))

    def edit(self, number):
        """The first edit of an outcome: a line of a session, and other forms of the byte."""
        one_range, at, value, _ = self.merged.firsts[number]
        return one_range.line(at, value) + (f" ({byte_told(value)})" if one_range.kind == "bytes" else "")

    def bad_lines(self):
        finds = self.finds()
        bad = sum(self.merged.tallies[number] for number in self.order if self.news[number])
        new = counted(len(finds), "new error, leak or stop", "new errors, leaks and stops")
        others = counted(len(self.outcomes) - 1, "outcome")
        yield f"{new}, by {counted(bad, 'edit')}; {others} other than the unedited"
        yield from self.clean_lines()
        yield from filter(None, [self.executed])
        if finds:
            yield ""
            yield f"   {'edits':>8}  {'first edit':<{self.width}} new error, leak or stop"
        for part, edits, number in finds:
            yield f"   {edits:8}  {self.edit(number):<{self.width}} {self.sources.told(part)}"

    def clean_lines(self):
        """How many runs have no error: with no suppressions an outline lists each, so these are runs without a use of undefined or
        inaccessible memory. What that means for them is said unless an edit of the sweep is in the way of it."""
        edits, head = sum(self.merged.tallies[outcome.number] for outcome in self.outcomes if not outcome.has_errors), self.merged.head
        if edits and not head.files[SUPPRESSIONS][0]:
            too = "" if self.unedited.has_errors else " and the unedited run"
            is_hindered = any(one_range.kind == "steps" and one_range.hinders(head.isa, head.regions.heap) for one_range in head.ranges)
            says = "" if is_hindered else (
                f": nothing that uninitialised, freed or unmapped memory holds can change these runs up to step {head.step}")
            yield f"no error by {counted(edits, 'edit')}{too}{says}"

    # ---- outcomes

    def first(self, number):
        """The first edit of an outcome, with the byte that it replaces."""
        if not number:
            return "as unedited"
        one_range, at, *_ = self.merged.firsts[number]
        before = self.before(one_range, at) if one_range.kind == "bytes" else None
        return self.edit(number) + (f", was {before} ({byte_told(before)})" if before is not None else "")

    def outcome_lines(self, number):
        outcome, had = self.outcomes[number], {part.text for part in self.unedited.parts}
        yield f"   {self.merged.tallies[number]:8}  {self.first(number):<{self.width}} {number}: {outcome.told}"
        if not number:
            return
        one_range, at, value, _ = self.merged.firsts[number]
        if one_range.kind == "steps" and self.instructions:
            yield from (f"{INDENT}step {step}: {where}" for step, where in self.instructions.told(value))
        before = self.before(one_range, at) if one_range.kind == "words" else None
        if before is not None:
            yield f"{INDENT}was {one_range.named(before)}{self.sources.behind(f'0x{at:08x}')}"
        for part in outcome.parts:
            yield f"{INDENT}{'  ' if part.text in had else '+ '}{self.sources.told(part)}"
        for part in self.unedited.parts:
            if part.text not in {part.text for part in outcome.parts}:
                yield f"{INDENT}- {self.sources.told(part)}"

    def running_lines(self):
        """The number of edits that still run at the step of the sweep."""
        edits = sum(self.merged.tallies[outcome.number] for outcome in self.outcomes if outcome.is_running)
        who = ["the unedited run"] * self.unedited.is_running + [counted(edits, "edit")] * bool(edits)
        if who:
            yield still_running(self.merged.head.step, " and ".join(who))

    def lines(self):
        head = self.merged.head
        where = "; ".join(map(str, head.ranges))
        yield f"{self.title}: {counted(self.merged.edits, 'edit')}, {where}, step {head.step}"
        yield from filter(None, [self.step_note, *self.notes])
        errors = counted(len(self.unedited.parts), "error or leak", "errors and leaks") if self.unedited.parts else (
            "no errors or leaks")
        yield f"unedited: {self.unedited.told}, {errors}"
        yield from self.running_lines()
        yield from self.bad_lines()
        yield ""
        yield f"   {'edits':>8}  {'first edit':<{self.width}} outcome, by its number in the table"
        for number in self.order:
            yield from self.outcome_lines(number)
