"""What the runs of an exploration execute of the source: the unedited run, and one for each edit. Sessions side by side type an edit, look
at what its run has done in each part of the code, and take the edit back."""
from __future__ import annotations

import os
from collections import deque
from dataclasses import dataclass
from typing import Deque, Dict, List, Optional, Set, Tuple

from replaycheck.covering import lcov
from replaycheck.covering.covered import Covered
from replaycheck.covering.runs import Sides, parts_reached
from replaycheck.covering.table import spans
from replaycheck.guest.code import Code
from replaycheck.guest.elf import Elf
from replaycheck.places import Paths, Places
from replaycheck.refusals import Ended, Refused
from replaycheck.sessions import Session

from .edited_runs import MOST_WAITING, UNEDITED, Answer, Edit, Lookers, check_unchanged, edits_of, fault_of, opened
from .merging import Merged
from .progress import Progress

OPTION = "--lcov"
MOST_TOLD = 1 << 22
MOST_FILES = 3  # that the summary names


@dataclass
class Sent:
    """An edit that a session has been given, and how many parts of the code were known to be reached then. `is_missed` says whether the run
    reaches another one."""

    edit: Edit
    known: int
    is_missed: bool = False


class Executed:
    """What runs have executed up to `step`: the unedited one, and those of the edits that are added. The sessions end with the block of
    `with`. If the tables say it, `merged` has what they say, and no session looks. `reached` are the parts of the code in which some run is
    known to execute something: a look is at one of them, or at parts next to each other of which none is."""

    def __init__(self, request, jobs):
        self.request, self.step = request, 0
        self.path, self.places = request.program.path, Places(request.program.path, Paths(from_here=True))
        self.code = Code(self.path, request.isa, request.regions)
        check_lines(self.path, self.code, self.places)
        # What the runs of edits of the input and what other ones did.
        self.sides, self.altered = (Sides(self.code.ranges, self.code.unit) for _ in range(2))
        self.reached: Set[int] = set()
        self.looks: Tuple[int, list] = (0, [])  # the lines that look at a run, for a number of parts that are reached
        self.queue: Deque[Edit] = deque([UNEDITED])
        self.lookers = Lookers(self.opened, jobs, OPTION)
        self.progress: Optional[Progress] = None
        self.merged: Optional[Merged] = None

    @property
    def is_whole(self):
        """Whether a table can say all of it: that has the code of the segment in which the program begins."""
        low, high = told_range(self.request.program.content)
        return all(low <= begin and end <= high for begin, end in self.code.ranges)

    def __enter__(self):
        return self

    def begin(self, merged: Merged, edits):
        """Chooses the step, that of a sweep. `edits` is the number of edits, or 0 if that isn't known."""
        self.step, self.progress = merged.head.step, Progress(edits, "lines executed by ")
        if merged.head.has_sides and self.is_whole:
            self.merged = merged
            self.queue.clear()

    def __exit__(self, *_):
        if self.progress:
            self.progress.end()
        self.lookers.close()

    def opened(self) -> Session:
        """A session at the step."""
        session = opened(self.request, self.step)
        try:
            session.accepted(f"goto {self.step}")
        except (Ended, Refused) as fault:
            raise fault_of(UNEDITED, fault, OPTION) from None
        return session

    # ---- the looks

    def lines_of_looks(self) -> List[Tuple[str, Optional[int]]]:
        """The lines that look at a run, each with the part that it is at, None where there isn't one."""
        found: List[Tuple[str, Optional[int]]] = []
        others: List[List[int]] = []
        for begin in sorted(self.sides.parts):
            length = self.sides.length(begin)
            if begin in self.reached:
                found.append((f"look sides 0x{begin:x} {length}", begin))
            elif others and sum(others[-1]) == begin:
                others[-1][1] += length
            else:
                others.append([begin, length])
        if not others:
            return found
        searches = [f"look next run 0x{begin:x} {length} {self.step}" for begin, length in others]
        return [*((line, None) for line in ("goto 0", *searches, f"goto {self.step}")), *found]

    def search(self, edit: Edit):
        """Adds the parts that a run reaches, by a session of its own."""
        session = opened(self.request, self.step)
        try:
            session.accept_all(edit.lines)
            found = set(parts_reached(session, self.sides, self.step)) - self.reached
        except (Ended, Refused) as fault:
            raise fault_of(edit, fault, OPTION) from None
        session.end()
        self.reached |= found or self.sides.parts.keys()

    def add(self, place):
        """Adds the edits of a place of a table."""
        if self.merged:
            return
        for edit in edits_of(place, self.request):
            self.queue.append(edit)
            if len(self.queue) > MOST_WAITING:
                self.work()

    def work(self):
        """Gives the edits that wait to the sessions as far as they have room, and takes replies that have come."""
        if not self.reached:
            self.search(UNEDITED)
        self.lookers.renew()
        if self.looks[0] != len(self.reached):
            self.looks = len(self.reached), self.lines_of_looks()
        while self.queue and self.lookers.has_room:
            self.lookers.give(Sent(self.queue.popleft(), len(self.reached)), self.looks[1])
        for answer in self.lookers.replies():
            self.take(answer)
            if answer.is_last:
                self.progress.add(int(not answer.asked.is_missed))

    def take(self, answer: Answer):
        """Takes a reply."""
        sent, part, reply = answer.asked, answer.what, answer.reply[0]
        if reply.startswith("refused "):
            raise fault_of(sent.edit, Refused(answer.line, reply), OPTION)
        if part is not None:
            (self.sides if sent.edit.is_of_input else self.altered).add(part, reply.removeprefix("sides "))
        elif answer.line.startswith("look next run ") and reply != "none" and not sent.is_missed:
            sent.is_missed = True
            if len(self.reached) == sent.known:
                self.search(sent.edit)
            self.queue.appendleft(sent.edit)

    # ---- what was executed

    def all(self) -> Dict[int, int]:
        """The addresses that were executed, in order, with what was done there. An edit of code, or of the machine, may execute what is no
        instruction of the program: from within one on, or data. That has no line."""
        found = self.sides.all()
        known = {instruction.address for instruction in self.code.instructions(list(found))}
        for address, side in self.altered.all().items():
            if address in known:
                found[address] = found.get(address, 0) | side
        return dict(sorted(found.items()))

    def end(self) -> Covered:
        """Waits for the last replies."""
        while self.queue or self.lookers.is_waiting:
            self.work()
        for at, digits in self.merged.sides.items() if self.merged else ():
            self.sides.add_line(at, digits.decode("ascii"))
        if self.progress:
            self.progress.end()
        for file in self.request.files:
            check_unchanged(file, OPTION)
        return Covered(self.path, self.code, self.all(), self.places)


def told_range(program: bytes) -> Tuple[int, int]:
    """The addresses of which a table says what was executed: of the file's bytes of the segment in which the program begins, at most
    4 MiB."""
    elf = Elf(program)
    for segment in elf.loads:
        if segment.vaddr <= elf.entry < segment.vaddr + segment.memsz:
            low = segment.vaddr - segment.vaddr % 4
            return low, low + min(segment.vaddr % 4 + segment.filesz, MOST_TOLD)
    return 0, 0


def check_lines(path, code: Code, places: Places):
    """Rejects a program without source lines before anything is done."""
    for instruction in code.instructions([]):
        if places.at(f"0x{instruction.address:08x}"):
            return
    Covered(path, code, {}, places)


def told(covered: Covered) -> str:
    """A line that says how many lines are executed, and which aren't, of the files that have the most."""
    counts = [(len(file.lines) - len(file.unexecuted), file) for file in covered.files]
    named = sorted((count for count in counts if count[0]), key=lambda count: (-count[0], count[1].name))[:MOST_FILES]
    texts = [f"{count} of {len(file.lines)}{'' if at else ' lines'} of {lcov.plain(os.path.basename(file.name))}"
             + (f" (never {spans(file)})" if file.unexecuted else "") for at, (count, file) in enumerate(named)]
    more = len(counts) - len(named)
    return "executed: " + ", ".join([*(texts or ["no line"]), *([f"{more} more file{'s' * (more > 1)}"] if more else [])])
