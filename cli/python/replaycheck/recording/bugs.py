"""The errors, leaks and stops of a sweep's outcomes, each with its place in the source, and those that are new, by their places."""
from __future__ import annotations

import re
from dataclasses import dataclass, field
from typing import Dict, Iterable, List, Optional, Tuple

from replaycheck.exploring.outcomes import part_of
from replaycheck.exploring.picture import kind_of_outcome
from replaycheck.findings import Call, Finding, Shown, stop_text
from replaycheck.places import Paths
from replaycheck.reports import FRAME, LEAK_KINDS, Address, Error, Frame, Report, State, read_state
from replaycheck.reports import Lines as ReportLines

Group = Tuple[str, Tuple[str, ...]]  # the text of an error, a leak or a stop, and the lines of its trace


@dataclass
class Found:
    """An error, a leak or a stop: how it begins in a report, the lines of its trace there, what it is called, and the call that it is
    told at, None where it has no trace."""

    text: str
    trace: Tuple[str, ...]
    title: str
    lead: Optional[Call]

    @property
    def where(self) -> str:
        """Its function and source line, or its address."""
        if self.lead is None:
            return ""
        name = "" if self.lead.function == "???" else self.lead.function
        return ", ".join(filter(None, (name, str(self.lead.place or self.lead.address))))


@dataclass
class Bug:
    """What is new at a place: the worst of it, the class of its colour, how many edits lead to it, and the outcome that has the first
    of them."""

    found: Found
    kind: str
    badness: int
    outcomes: List[int] = field(default_factory=list)
    edits: int = 0


class Bugs:
    """What the outcomes of a summary have. `frames` are lines of traces of reports, which are given places, too. `of` has the numbers of
    each outcome's errors, leaks and stop, and `new` of those that the unedited run doesn't have, the worst first."""

    def __init__(self, summary, request, frames: Iterable[str]):
        self.summary, self.request = summary, request
        groups = [groups_of(outcome) for outcome in summary.outcomes]
        self.shown, self.notes = shown_with({line for some in groups for _, trace in some for line in trace} | {*frames}, request)
        self.all: List[Found] = []
        self.numbers: Dict[Group, int] = {}
        self.of = [[self.number(group) for group in some] for some in groups]
        self.new = [self.news(number) for number in range(len(groups))]

    def number(self, group: Group) -> int:
        if group not in self.numbers:
            self.numbers[group] = len(self.all)
            self.all.append(self.found(group))
        return self.numbers[group]

    def found(self, group: Group) -> Found:
        text, trace = group
        frames = [frame_of(line) for line in trace]
        title = f"a block is {text}" if text in LEAK_KINDS else text
        if text.startswith("stopped "):
            state = read_state(ReportLines([f"state {text}" + ("" if " 0x" in text else " 0x00000000")]))
            title = stop_text(state, self.request.isa)
            frames = [self.shown.frame_at(state.address)] if " 0x" in text else []
        calls = self.shown.calls(frames)
        return Found(text, trace, title, Finding("", True, text, 1, calls).lead() if calls else None)

    def news(self, number: int) -> List[int]:
        """The numbers of what is new in an outcome, the worst first."""
        new = {part.text: -part.badness for part in self.summary.news[number]}
        told = [(new[text], index) for index in self.of[number] if (text := part_text(self.all[index])) in new]
        return [index for _, index in sorted(told, key=lambda pair: pair[0])]

    def places(self) -> List[Bug]:
        """What is new by what it is and where, the worst first, and among equals in the order of the first edits."""
        bugs: Dict[Tuple[str, str], Bug] = {}
        for number in self.summary.order[1:]:
            of_outcome = set()
            for index in self.new[number]:
                found = self.all[index]
                part = part_of(found.text, list(found.trace))
                bug = bugs.setdefault((found.title, found.where), Bug(found, kind_of_outcome(number, [part], False), part.badness))
                if id(bug) not in of_outcome:
                    of_outcome.add(id(bug))
                    bug.outcomes.append(number)
                    bug.edits += self.summary.merged.tallies[number]
        for bug in bugs.values():
            bug.outcomes.sort(key=self.first)
        return sorted(bugs.values(), key=lambda place: (-place.badness, self.first(place.outcomes[0])))

    def first(self, number: int) -> int:
        """Which edit of all is the first one with an outcome."""
        return self.summary.merged.firsts[number][3]


def part_text(found: Found) -> str:
    return part_of(found.text, list(found.trace)).text


def groups_of(outcome) -> List[Group]:
    """The errors and leaks of an outcome with their traces, each once, and its stop."""
    found: Dict[Group, None] = {(outcome.state, ()): None} if outcome.state.startswith("stopped ") else {}
    rows = outcome.lines[2 if outcome.written else 1:]
    starts = [at for at, line in enumerate(rows) if not line.startswith("   ")]
    for start, end in zip(starts, [*starts[1:], len(rows)]):
        found[rows[start], tuple(rows[start + 1:end])] = None
    return list(found)


def frame_of(line: str) -> Frame:
    at = re.fullmatch(FRAME, line)
    assert at is not None  # a table or a report that was read has no other lines there
    return Frame(Address(at[2], 16), at[3])


def shown_with(lines: Iterable[str], request) -> Tuple[Shown, List[str]]:
    """What shows calls at the frames of some lines, and what of them can't be shown, in lines."""
    trace = [frame_of(line) for line in sorted(lines)]
    report = Report(0, State("exited", status=0), 0, 0, 0, [Error(1, "", trace, None)], [], {}, 0, 0, 0, 0)
    shown = Shown(report, request.program.path, None, (), isa=request.isa, regions=request.regions)
    return shown, shown.show(Paths(), True)
