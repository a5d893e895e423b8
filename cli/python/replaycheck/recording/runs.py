"""What a recording of a sweep has of its runs: which edits, and of each the whole report and what the program wrote, as sessions with the
program say it."""
from __future__ import annotations

from array import array
from dataclasses import dataclass, field
from typing import Any, Callable, Dict, Iterator, List, Optional, Set, Tuple

from replaycheck.endings import Fault, heed_signal
from replaycheck.exploring.edited_runs import UNEDITED, Answer, Edit, Lookers, check_unchanged, edits_of, fault_of, opened
from replaycheck.exploring.progress import Progress
from replaycheck.refusals import Ended, Refused
from replaycheck.reports import Report, reports_in

OPTION = "--html"
MOST_EDITS = 200000  # that a file has
MOST_OUTPUT = 2048  # bytes of each output
LONGEST_REPORT = 2000  # lines
MOST_REPORTS, MOST_OUTPUTS = 1 << 21, 1 << 21  # characters that the reports and the outputs of a file need, but for what they share
OUTPUT, REPORT = f"look output 0 {MOST_OUTPUT}", "report"


@dataclass
class LeftOut:
    """How much a file doesn't have: places with their edits, those edits among them that lead to something new, and of the edits that it
    has how many have no report, or no output."""

    places: int = 0
    edits: int = 0
    new: int = 0
    reports: int = 0
    outputs: int = 0

    def add(self, place, is_new: Callable[[int], bool]) -> None:
        """Counts a place that a file doesn't have."""
        self.places, self.edits = self.places + 1, self.edits + len(place.edits)
        self.new += sum(map(is_new, place.edits.values()))


class Chosen:
    """The places of a sweep that a file has, up to MOST_EDITS edits: those with something new come before the others, and among equals the
    first ones. `is_new` says whether an outcome is something new."""

    def __init__(self, is_new: Callable[[int], bool]):
        self.is_new, self.left = is_new, LeftOut()
        self.found: Dict[bool, list] = {True: [], False: []}
        self.edits = {True: 0, False: 0}

    def add(self, place) -> None:
        has_new = any(map(self.is_new, set(place.edits.values())))
        if self.edits[has_new] + len(place.edits) > MOST_EDITS:
            self.left.add(place, self.is_new)
        else:
            self.found[has_new].append(place)
            self.edits[has_new] += len(place.edits)

    def end(self) -> list:
        """Returns the places in their order."""
        kept, edits = list(self.found[True]), self.edits[True]
        for place in self.found[False]:
            if edits + len(place.edits) > MOST_EDITS:
                self.left.add(place, self.is_new)
            else:
                kept.append(place)
                edits += len(place.edits)
        return sorted(kept, key=lambda one: one.ordinal)


@dataclass
class Asked:
    """An edit whose run is looked at, its place among those of the file, where the unedited run is 0, and its outcome in the table."""

    edit: Edit
    index: int
    outcome: int


@dataclass
class Written:
    """An output beside that of the unedited run: how many bytes they have in common at the begin and at the end, and what is between."""

    before: int
    after: int
    between: bytes

    @property
    def key(self) -> Tuple[int, int, bytes]:
        return self.before, self.after, self.between


def beside(output: bytes, unedited: bytes) -> Written:
    """An output as what differs in it from the unedited run's."""
    most = min(len(output), len(unedited))
    before = next((at for at in range(most) if output[at] != unedited[at]), most)
    most -= before
    after = next((at for at in range(most) if output[-1 - at] != unedited[-1 - at]), most)
    return Written(before, after, output[before:len(output) - after])


@dataclass
class Texts:
    """Texts, each once, by numbers from 1 on in the order of the edits; 0 is one that is left out. `of` has a number for each edit."""

    of: List[int] = field(default_factory=list)
    all: List[Any] = field(default_factory=list)
    left_out: int = 0


class Recorder:
    """Learns of each edit its report and its output. `request` has the files, and `outcomes` are those of the table, with which the
    reports must agree."""

    def __init__(self, request, head, outcomes: List[bytes], jobs: int):
        self.request, self.head, self.outcomes, self.jobs = request, head, outcomes, jobs
        self.lines: Dict[str, int] = {}
        self.reports: Dict[bytes, int] = {}  # each as the numbers of its lines
        self.outputs: Dict[Tuple[int, int, bytes], int] = {}
        self.of_reports, self.of_outputs = array("I"), array("I")  # of each edit, by numbers in the order in which they came
        self.seen: Set[Tuple[int, int]] = set()  # which reports were compared with which outcomes
        self.unedited = b""

    def opened(self):
        """A session at the step."""
        session = opened(self.request, self.head.step)
        try:
            session.accepted(f"goto {self.head.step}")
        except (Ended, Refused) as fault:
            raise fault_of(UNEDITED, fault, OPTION) from None
        return session

    def record(self, places: list) -> None:
        """Looks at the unedited run and at those of the edits of some places."""
        count = 1 + sum(len(place.edits) for place in places)
        for numbers in (self.of_reports, self.of_outputs):
            numbers.extend([0] * count)
        self.look_at_unedited()
        progress, lookers = Progress(count - 1, "reports of "), Lookers(self.opened, self.jobs, OPTION)
        waiting = self.asked(places)
        looks = [(REPORT, REPORT), (OUTPUT, OUTPUT)]
        try:
            next_one = next(waiting, None)
            while next_one or lookers.is_waiting:
                heed_signal()
                lookers.renew()
                while next_one and lookers.has_room:
                    lookers.give(next_one, looks)
                    next_one = next(waiting, None)
                for answer in lookers.replies():
                    self.take(answer)
                    progress.add(int(answer.is_last))
        finally:
            progress.end()
            lookers.close()
        for file in self.request.files:
            check_unchanged(file, OPTION)

    def asked(self, places: list) -> Iterator[Asked]:
        index = 0
        for place in places:
            for edit, outcome in zip(edits_of(place, self.request), place.edits.values()):
                index += 1
                yield Asked(edit, index, outcome)

    def look_at_unedited(self) -> None:
        session, asked = self.opened(), Asked(UNEDITED, 0, 0)
        try:
            replies = {line: session.accepted(line) for line in (OUTPUT, REPORT)}
        except (Ended, Refused) as fault:
            raise fault_of(UNEDITED, fault, OPTION) from None
        session.end()
        self.unedited = bytes_of(replies[OUTPUT])
        for line, reply in replies.items():
            self.take(Answer(asked, line, line, reply, False))

    def take(self, answer: Answer) -> None:
        """Takes a reply."""
        asked, reply = answer.asked, answer.reply
        if reply[0].startswith("refused "):
            raise fault_of(asked.edit, Refused(answer.line, reply[0]), OPTION)
        if answer.what == REPORT:
            text = array("I", [self.lines.setdefault(line, len(self.lines)) for line in reply]).tobytes()
            number = self.of_reports[asked.index] = self.reports.setdefault(text, len(self.reports))
            if (number, asked.outcome) not in self.seen:
                self.seen.add((number, asked.outcome))
                self.compare(asked, reply)
        elif answer.what == OUTPUT:
            key = beside(bytes_of(reply), self.unedited).key
            self.of_outputs[asked.index] = self.outputs.setdefault(key, len(self.outputs))

    def compare(self, asked: Asked, reply: List[str]) -> None:
        """Compares a report with the outcome that the table has for its edit."""
        report, = reports_in(reply)
        if "\n".join(outline(report, self.head.has_output)).encode("ascii") != self.outcomes[asked.outcome]:
            raise Fault(f"{OPTION}: {asked.edit} has another report than the table says: the table is of another program, or a file was "
                        "changed")

    # ---- what a file has of them

    def reports_kept(self) -> Tuple[Texts, List[str]]:
        """The reports in the order of the edits, as numbers of lines, and the lines."""
        found, names = [array("I", report) for report in self.reports], list(self.lines)
        lines: Dict[int, int] = {}
        room = MOST_REPORTS

        def made(number: int) -> Optional[List[int]]:
            nonlocal room
            report = found[number]
            needed = sum(len(names[line]) for line in {*report} - lines.keys()) + len(report)
            if len(report) > LONGEST_REPORT or needed > room:
                return None
            room -= needed
            return [lines.setdefault(line, len(lines)) for line in report]

        return texts_of(self.of_reports, made), [names[line] for line in lines]

    def outputs_kept(self) -> Texts:
        """The outputs in the order of the edits."""
        found, room = [Written(*output) for output in self.outputs], MOST_OUTPUTS

        def made(number: int) -> Optional[Written]:
            nonlocal room
            if len(found[number].between) > room:
                return None
            room -= len(found[number].between)
            return found[number]

        return texts_of(self.of_outputs, made)


def texts_of(numbers: array, made: Callable[[int], Any]) -> Texts:
    """The texts that edits have by numbers, numbered anew in the order of the edits; `made` makes one, or None if there is no room."""
    texts, known = Texts(), {}
    for number in numbers:
        if number not in known:
            text = made(number)
            if text is not None:
                texts.all.append(text)
            known[number] = 0 if text is None else len(texts.all)
        texts.of.append(known[number])
        texts.left_out += not known[number]
    return texts


def bytes_of(reply: List[str]) -> bytes:
    """The bytes in the reply to a look at the output."""
    return bytes.fromhex(reply[0].partition(" ")[2])


def is_jump(text: str) -> bool:
    """Whether an error is a bad jump, whose trace begins where it went."""
    return text.startswith("Jump ")


def outline(report: Report, has_output: bool) -> Iterator[str]:
    """The lines that a table of a sweep has for an outcome. Of a bad jump they leave out where it went."""
    state = report.state
    is_at = state.name == "stopped" and state.why != "jump"
    yield " ".join(str(word) for word in (state.name, state.why, state.address if is_at else None, state.status) if word is not None)
    if has_output:
        yield f"output {report.written}"
    errors = ((error.text, error.trace[is_jump(error.text):]) for error in report.errors)
    for text, trace in [*errors, *((leak.kind, leak.trace) for leak in report.leaks)]:
        yield text
        yield from (f"   {'by' if at else 'at'} {frame.address}: {frame.name}" for at, frame in enumerate(trace))
