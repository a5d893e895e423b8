"""The runs of the edits of a sweep, in sessions side by side. Each session types an edit, asks about its run, and takes the edit back."""
from __future__ import annotations

import os
import selectors
from collections import deque
from dataclasses import dataclass
from typing import Any, Callable, Deque, Iterator, List, Optional, Tuple

from replaycheck.covering.runs import why
from replaycheck.endings import Fault
from replaycheck.guest.lines import shown_name
from replaycheck.options import limit_for
from replaycheck.replies import extent
from replaycheck.sessions import Session

MOST_LINES = 90000  # of a session, which takes 100,000 and doesn't count looks
MOST_WAITING = 1000  # lines of a session whose replies are to come


@dataclass
class Edit:
    """The lines of a session that make an edit, and those that take it back. The next edit of the same `place`, a byte or an instruction,
    needs no line that takes this one back; an alteration at a step has the place None. `is_of_input` says whether the program and the
    machine are as they were."""

    lines: List[str]
    back: List[str]
    place: Optional[Tuple[str, int]]
    is_of_input: bool

    def __str__(self):
        return f"the run with `{'; '.join(self.lines)}`" if self.lines else "the unedited run"


UNEDITED = Edit([], [], None, True)


def edits_of(place, request) -> Iterator[Edit]:
    """The edits of a place of a table."""
    one_range, at = place.range, place.at
    before = None if one_range.kind == "steps" else request.before(one_range, at)
    for value in place.edits:
        lines = one_range.line(at, value).split("; ")
        if one_range.kind == "steps":
            yield Edit(lines, ["unmark 0"] * len(lines), None, False)
        else:
            yield Edit(lines, [] if before is None else [one_range.line(at, before)], (one_range.kind, at), one_range.kind == "bytes")


def fault_of(edit: Edit, fault: Fault, option: str) -> Fault:
    """A fault that says of which edit's run an option doesn't learn what it asks."""
    return Fault(f"{option}: no look at {edit}: {why(fault)}")


def opened(request, step: int) -> Session:
    """A session on the files of a request that goes up to a step."""
    program, given, supp = (file.path or None for file in request.files)
    return Session(program, given, supp, command="look", isa=request.isa, regions=request.regions, limit=limit_for(step))


def check_unchanged(given, option: str) -> None:
    """Rejects a file that isn't any more as it was read."""
    if given.path:
        with open(given.path, "rb") as file:
            if file.read(len(given.content) + 1) != given.content:
                raise Fault(f"{option}: {shown_name(given.name)} was changed meanwhile")


@dataclass
class Answer:
    """The lines of a reply, the line that it is to, and who asked: `asked` has the edit, and `what` is what came with the line. `is_last`
    says whether the reply is the last one of that edit."""

    asked: Any
    line: str
    what: Any
    reply: List[str]
    is_last: bool


class Looker:
    """A session that looks at one edited run after another. Many lines go ahead of their replies."""

    def __init__(self, selector, opened: Callable[[], Session], option: str):
        self.selector, self.opened, self.option = selector, opened, option
        self.session: Optional[Session] = None
        self.waiting: Deque[Tuple[Any, str, Any]] = deque()  # the lines that aren't replied to, each with who asked
        self.unsent = self.unread = b""
        self.reply: List[str] = []  # the lines of the reply that has begun
        self.lines, self.stands = 0, UNEDITED

    @property
    def has_room(self) -> bool:
        return len(self.waiting) < MOST_WAITING and self.lines < MOST_LINES

    def close(self) -> None:
        if self.session is not None:
            self.selector.unregister(self.session.child.stdout)
            self.session.end()
        self.session, self.lines, self.stands = None, 0, UNEDITED

    def open(self) -> None:
        self.session = self.opened()
        os.set_blocking(self.session.child.stdin.fileno(), False)
        self.selector.register(self.session.child.stdout, selectors.EVENT_READ, self)

    def give(self, asked: Any, looks: List[Tuple[str, Any]]) -> None:
        """Takes an edit, that of `asked`, and the lines that look at its run, each with what comes back with its reply."""
        if self.session is None:
            self.open()
        edit, stands = asked.edit, self.stands
        lines = [*([] if edit.place and edit.place == stands.place else stands.back), *edit.lines]
        told = [*((line, None) for line in lines), *looks]
        self.waiting.extend((asked, *pair) for pair in told)
        self.unsent += "".join(f"{line}\n" for line, _ in told).encode("ascii")
        self.lines += sum(not line.startswith("look ") for line, _ in told)
        self.stands = edit

    def send(self) -> None:
        """Writes what the pipe takes. The rest follows when a reply has come, as then there is room."""
        while self.unsent and self.session is not None:
            try:
                self.unsent = self.unsent[os.write(self.session.child.stdin.fileno(), self.unsent):]
            except BlockingIOError:
                return
            except BrokenPipeError:
                self.unsent = b""  # the end of its output says why

    def replies(self) -> Iterator[Answer]:
        """Reads what has come, and yields the replies that are whole."""
        assert self.session is not None  # the pipe of one is registered, until it ends
        content = os.read(self.session.child.stdout.fileno(), 1 << 16)
        if not content:
            raise fault_of(self.waiting[0][0].edit if self.waiting else self.stands, self.session.ended(), self.option)
        *lines, self.unread = (self.unread + content).split(b"\n")
        for line in lines:
            self.reply.append(line.decode("utf-8", "surrogateescape"))
            least, ends = extent(self.waiting[0][1], self.reply[0])
            if len(self.reply) >= least and (not ends or self.reply[-1].startswith(ends)):
                reply, self.reply = self.reply, []
                asked, typed, what = self.waiting.popleft()
                yield Answer(asked, typed, what, reply, not self.waiting or self.waiting[0][0] is not asked)


class Lookers:
    """Sessions side by side that look at edited runs. `option` is the one that asks for it, of which a fault speaks."""

    def __init__(self, opened: Callable[[], Session], jobs: int, option: str):
        self.selector = selectors.DefaultSelector()
        self.all = [Looker(self.selector, opened, option) for _ in range(jobs)]

    @property
    def has_room(self) -> bool:
        return any(looker.has_room for looker in self.all)

    @property
    def is_waiting(self) -> bool:
        """Whether a reply is to come."""
        return any(looker.waiting for looker in self.all)

    def renew(self) -> None:
        """Ends the sessions that have had their lines. Others take their places."""
        for looker in self.all:
            if looker.lines >= MOST_LINES and not looker.waiting:
                looker.close()

    def give(self, asked: Any, looks: List[Tuple[str, Any]]) -> None:
        """Gives an edit with its looks to the session that has the fewest lines to answer. One must have room."""
        min((looker for looker in self.all if looker.has_room), key=lambda looker: len(looker.waiting)).give(asked, looks)

    def replies(self) -> Iterator[Answer]:
        """Sends what was given, waits for something to come, and yields the replies that are whole."""
        for looker in self.all:
            looker.send()
        for key, _ in self.selector.select() if self.is_waiting else ():
            yield from key.data.replies()
            key.data.send()

    def close(self) -> None:
        for looker in self.all:
            looker.close()
        self.selector.close()
