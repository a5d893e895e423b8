"""The instructions at the steps at which the machine is altered: where each is in the program and in its source."""
from typing import Dict, Iterable, List, Optional, Set, Tuple

from replaycheck.disassembly import texts_at
from replaycheck.guest.lines import shown_name
from replaycheck.options import limit_for
from replaycheck.sessions import Session

from .steps import PAIR, steps_in

AT_ONCE = 500  # so many questions fit into a pipe
MOST_LINES = 80000  # of a session, which takes 100,000


class Instructions:
    """What the unedited run executes at steps, and the second steps of pairs in the run with the first skip. `lines` has the source lines.
    What can't be found, as the file of the program isn't there or has no such function, isn't told."""

    def __init__(self, request, lines):
        self.request, self.lines = request, lines
        self.addresses: Dict[Tuple[int, Optional[int]], Optional[int]] = {}
        self.texts: Dict[int, Optional[str]] = {}
        self.asked = 0  # lines of the session

    def learn(self, edits: Iterable[str]) -> None:
        """Finds out which instruction is executed at each step of edits."""
        if self.request is None:
            return
        steps: Set[int] = set()
        pairs: Dict[int, Set[int]] = {}
        for edit in edits:
            pair = PAIR.fullmatch(edit)
            steps.add(steps_in(edit)[0])
            if pair:
                pairs.setdefault(int(pair[1]), set()).add(int(pair[2]))
        self.learn_runs([(None, steps), *sorted(pairs.items())])
        self.lines.learn([f"0x{address:08x}" for address in self.addresses.values() if address is not None])

    def learn_runs(self, runs: Iterable[Tuple[Optional[int], Set[int]]]) -> None:
        """Looks at steps of the unedited run, which is that without a skip, and of runs with a skip, that weren't looked at before."""
        session, runs = None, list(runs)
        limit = limit_for(max((max(steps, default=0) for _, steps in runs), default=0))
        for skipped, steps in runs:
            new = sorted(step for step in steps if (step, skipped) not in self.addresses)
            for begin in range(0, len(new), AT_ONCE):
                if session is None or self.asked > MOST_LINES:
                    session = self.opened(session, limit)
                self.look(session, skipped, new[begin:begin + AT_ONCE])
        if session is not None:
            session.end()

    def opened(self, before: Optional[Session], limit: int) -> Session:
        """A session in the place of one that has had its lines."""
        if before is not None:
            before.end()
        self.asked = 0
        program, given, supp = (file.path or None for file in self.request.files)
        return Session(program, given, supp, command="look", isa=self.request.isa, regions=self.request.regions, limit=limit)

    def look(self, session: Session, skipped: Optional[int], steps: List[int]) -> None:
        """Looks at steps, by lines that go together into a pipe. Of a program that doesn't have skips nothing is learnt."""
        self.asked += len(steps) + 2
        if skipped is not None and session.ask(f"skip {skipped}") != ["ok"]:
            self.addresses.update(((step, skipped), None) for step in steps)
            return
        session.send([line for step in steps for line in (f"goto {step}", "look registers")])
        for step in steps:
            session.reply()
            state = session.reply("look registers")[0].split(" ")
            self.addresses[step, skipped] = int(state[2], 16) if state[1] == "running" else None
        if skipped is not None:
            session.accepted("unmark 0")

    def addresses_of(self, steps: Iterable[int]) -> List[Optional[int]]:
        """The pc of the unedited run at steps."""
        steps = list(steps)
        self.learn_runs([(None, set(steps))])
        return [self.addresses[step, None] for step in steps]

    def address(self, step: int, skipped: Optional[int] = None) -> Optional[int]:
        """The pc at a step that was learnt."""
        return self.addresses.get((step, skipped))

    def where(self, address: int) -> str:
        """A place in the program: `verify+0x24 (boot.c:71), lw ra,28(sp)`."""
        elf, name = self.request.elf, f"0x{address:08x}"
        found = [places.before(address) for places in (elf.function_places, elf.label_places)] if elf else []
        symbol = next((candidate for candidate in found
                       if candidate and (not candidate.size or address < candidate.value + candidate.size)), None)
        if symbol:
            away = address - symbol.value
            name = shown_name(elf.name(symbol)) + (f"+0x{away:x}" if away else "")
        text = self.text(address)
        return f"{name}{self.lines.behind(f'0x{address:08x}')}" + (f", {text}" if text else "")

    def text(self, address: int) -> Optional[str]:
        """The text of an instruction; those of all that are known are asked for together."""
        if address not in self.texts:
            new = {address, *(other for other in self.addresses.values() if other is not None)} - self.texts.keys()
            self.texts.update(dict.fromkeys(new))
            self.texts.update(texts_at(self.request.program.path, new) if self.request.program.path else {})
        return self.texts[address]

    def told(self, edit: str) -> List[Tuple[int, str]]:
        """The instructions of an edit, each after its step. One that is taken with a bit inverted is altered back a step later, and told
        once."""
        pair = PAIR.fullmatch(edit)
        places = [(steps_in(edit)[0], None)] + ([(int(pair[2]), int(pair[1]))] if pair else [])
        found = [(step, self.address(step, skipped)) for step, skipped in places]
        return [(step, self.where(address)) for step, address in found if address is not None]
