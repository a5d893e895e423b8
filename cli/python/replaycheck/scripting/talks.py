"""The session of a run of the interface: begun when it is needed, and again after a fault, with all edits."""
from __future__ import annotations

import os
from itertools import islice
from typing import Callable

from replaycheck import looking, refusals
from replaycheck.endings import Fault
from replaycheck.guest.regions import Regions
from replaycheck.guest.symbols import Symbols
from replaycheck.programs import built_program
from replaycheck.scripting import errors
from replaycheck.scripting.files import Room, Source, name_of, read
from replaycheck.scripting.scenarios import Scenario
from replaycheck.sessions import Session

MOST_EDITS = 80000  # patches and suppressions: a session takes 100,000 lines, with marks and questions
MOST_FOLLOWED = 1000  # lines by which a session follows the scenario: otherwise another one begins


class Talk(looking.Run):
    """The lines of `replaycheck look` on the files of a run. `scenario` is the edited run; the session follows it when something is asked.
    A session whose state isn't known, as what was asked it was interrupted, isn't asked anything more."""

    def __init__(self, program: Source, given: Source | None, supp: Source | None, isa: str, regions: Regions, limit: int) -> None:
        sources = {"image": program, "input": b"" if given is None else given, "suppressions": supp}
        there = {what: source for what, source in sources.items() if source is not None}
        data = {what: read(what, source) for what, source in there.items()}
        self.names = {what: name_of(what, source) for what, source in there.items()}
        self.scenario, self.symbols = Scenario(data["input"]), Symbols(data["image"], self.names["image"])
        self.shown = self.scenario
        self.unedited: dict[int, int] = {}
        self.owner, self.is_sure, self.session, self.lines = os.getpid(), True, None, 0
        self.rooms: dict[str, Room] = {}
        try:
            for what in data:
                self.rooms[what] = Room(what, data[what])
            paths = {what: room.path for what, room in self.rooms.items()}
            super().__init__(paths["image"], paths["input"], paths.get("suppressions"), isa, regions, limit)
        except OSError as fault:
            self.close()
            raise self.told(fault) from None
        except BaseException:
            self.close()
            raise

    def close(self) -> None:
        """Ends the session and gives back what it holds. In a process that was forked from its own, the program stays."""
        self.drop()
        for room in self.rooms.values():
            room.close()

    # ---- the session

    def ready(self) -> Session:
        """Returns the session of the scenario, another one where there is none."""
        if self.owner != os.getpid():
            raise errors.Usage("a Run belongs to the process that opened it")
        if not self.is_sure or self.lines >= looking.MOST_LINES:
            self.drop()
        if self.session is not None and self.shown is not self.scenario:
            self.follow(self.session)
        return self.open() if self.session is None else self.session

    def follow(self, session: Session) -> None:
        """Leads the session to the scenario, or ends it."""
        lines = list(islice(self.shown.lines_to(self.scenario, self.unedited), MOST_FOLLOWED + 1))
        if not self.shown.leads_to(self.scenario) or len(lines) > MOST_FOLLOWED:
            self.drop()
            return
        self.is_sure = False
        try:
            session.accept_all(lines)
        except Fault:
            self.drop()
            return
        self.lines += len(lines)
        self.shown, self.is_sure = self.scenario, True

    def open(self) -> Session:
        self.rooms["input"].write(self.scenario.input)
        lines = [*Scenario(self.scenario.input).lines_to(self.scenario, self.unedited), f"goto {self.chosen}"]
        self.is_sure = False
        try:
            lent = [room.number for room in self.rooms.values()]
            program, given, supp = self.files
            session = self.session = Session(program, given, supp, keeps_status=True, lends=lent, command="look", path=built_program(),
                                             isa=self.isa, regions=self.regions, limit=self.limit)
            session.accept_all(lines)
        except (Fault, OSError) as fault:
            self.drop()
            raise self.told(fault) from None
        self.lines, self.shown, self.is_sure = len(lines), self.scenario, True
        return session

    def told(self, fault: Fault | OSError) -> errors.Error:
        """Returns the exception of this package for a fault of the tools, or of the system as too many files are open."""
        if isinstance(fault, refusals.Refused):
            return errors.of_line(fault, fault.line)
        if isinstance(fault, refusals.Ended):
            return errors.of_end(fault, self.names)
        return errors.Error(str(fault))

    def accepted(self, line: str, then: Callable[[], None] | None = None) -> list[str]:
        """Returns the reply to a line that must not be refused. `then` is what it does to this object."""
        session = self.ready()
        self.lines += 1
        self.is_sure = False
        try:
            rows = session.ask(line)
        except Fault as fault:
            self.drop()
            raise self.told(fault) from None
        is_refused = rows[0].startswith("refused ")
        if then is not None and not is_refused:
            then()
        self.is_sure = True
        if is_refused:
            raise errors.of_line(refusals.Refused(line, rows[0]), line)
        return rows

    def look(self, line: str) -> list[str]:
        return self.accepted(f"look {line}")

    def at(self, step: int) -> None:
        def choose() -> None:
            self.chosen = step
        if step != self.chosen:
            self.accepted(f"goto {step}", choose)

    def forget(self) -> None:
        super().forget()
        self.rows: list[str] = []
        self.rows_at: int | None = None

    def registers_at(self, step: int) -> list[str]:
        """Returns the lines of a look at the registers of a step, which is kept until an edit."""
        if self.rows_at != step:
            self.at(step)
            self.rows, self.rows_at = self.look("registers"), step
        return self.rows

    # ---- edits

    def become(self, scenario: Scenario) -> None:
        """Takes another scenario, as one that was before."""
        self.scenario = scenario
        self.forget()

    def change(self, line: str) -> None:
        """Makes an edit."""
        if len(self.scenario.words) + len(self.scenario.added) >= MOST_EDITS:
            raise errors.Usage(f"{line}: there are {MOST_EDITS} patches and suppressions already")
        after = self.scenario_after(line)

        def agree() -> None:
            if after is None:
                raise errors.Error(f"{line}: it was accepted, and this version can't take it back")
            self.scenario = self.shown = after
        self.accepted(line, agree)
        self.forget()

    def scenario_after(self, line: str) -> Scenario | None:
        """Returns the scenario after an edit, if it is accepted, and learns what takes a patch back; None if no such line is accepted."""
        try:
            after = self.scenario.after(line)
        except (ValueError, IndexError):
            return None
        for at in after.words.keys() - self.unedited.keys():  # multiples of 4
            if at + 4 > looking.TOP:
                return None
            self.unedited[at] = self.first_word(at)
        return after

    def first_word(self, address: int) -> int:
        """Returns a word of memory before step 0."""
        self.at(0)
        data, _ = self.look(f"memory 0x{address:x} 4")
        return int.from_bytes(bytes.fromhex(data.split()[1]), "little")
