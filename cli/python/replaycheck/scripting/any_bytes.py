"""What is certified of a run for each value of some bytes: `replaycheck certify --any`, asked for a script."""
from __future__ import annotations

import re
from contextlib import ExitStack, closing
from dataclasses import dataclass
from typing import Iterable, List, Optional, Tuple, Union

from replaycheck.certifying.memory import is_name, symbol_range
from replaycheck.children import outcome
from replaycheck.endings import Fault
from replaycheck.programs import built_program, isa_words
from replaycheck.refusals import Ended
from replaycheck.scripting.errors import Error, Usage, of_end
from replaycheck.scripting.files import Room
from replaycheck.scripting.scenarios import USUAL, Scenario
from replaycheck.scripting.talks import Talk

# Bytes of the input: a number, a range, or a text `A..B` or `A`; or some of these.
Bytes = Union[int, range, str, Iterable[Union[int, range, str]]]
# Bytes of memory: a range of addresses, a text `A..B` without B, or the name of a symbol; or some of these.
Areas = Union[range, str, Iterable[Union[range, str]]]
# What may be known: a step, an address and a number of bytes.
Known = Iterable[Tuple[int, int, int]]
OF_RUNS = ("redzone", "queue")  # the options of a session that change a run
STATUSES = (0, 5)  # the answers of `certify`
SAME, NOT_THE_SAME, NOT_CLEAN, GOES_ON = ": the run is the same up to step ", "not the same for any ", "not clean: ", "; the run goes on"
STEP = re.compile(r"\bat step (\d+)\b")


@dataclass(frozen=True)
class AnyCertificate:
    """What `replaycheck certify --any` says of a run up to a step, which is proved: `text` has its lines. `same` says that for each value
    of the bytes the run has the same instructions, addresses and status up to there, and the same errors but for writes of uninitialised
    bytes. `goes_on` says of such a run that it has not ended by then and doesn't rest in a jump to itself. `clean` says whether the run
    without these bytes is clean: if it isn't, nothing is said of other values. `step` is the step that the line names where the run isn't
    the same, or not clean. `asked` says whether a step was given. It is true where the command ends with 0: the run is the same, and
    doesn't go on unless its step was given."""

    text: str
    asked: bool = False

    def __bool__(self) -> bool:
        return self.same and (self.asked or not self.goes_on)

    def __str__(self) -> str:
        return self.text

    @property
    def same(self) -> bool:
        return SAME in self._line and not self._line.startswith((NOT_THE_SAME, NOT_CLEAN))

    @property
    def goes_on(self) -> bool:
        return self.same and self._line.endswith(GOES_ON)

    @property
    def clean(self) -> bool:
        return not self._line.startswith(NOT_CLEAN)

    @property
    def step(self) -> Optional[int]:
        found = None if self.same else STEP.search(self._line)
        return int(found[1]) if found else None

    @property
    def unread(self) -> List[str]:
        """The lines on bytes that are any and that the run doesn't read."""
        return [line.strip() for line in self.text.splitlines()[1:]]

    @property
    def _line(self) -> str:
        return self.text.partition("\n")[0]


def each(value: object) -> List[object]:
    """Returns the members of a value that may be one alone."""
    if isinstance(value, (int, range, str)):
        return [value]
    try:
        return list(value)  # type: ignore[call-overload, no-any-return]
    except TypeError:
        raise Usage(f"neither bytes nor some of them: {value!r}") from None


def bytes_word(value: object) -> str:
    if isinstance(value, range):
        if not value or value.step != 1:
            raise Usage(f"any: no range of bytes: {value!r}")
        return f"{value[0]}..{value[-1]}"
    return str(value)


def area_word(value: object, talk: Talk) -> str:
    if isinstance(value, range):
        if not value or value.step != 1:
            raise Usage(f"memory: no range of addresses: {value!r}")
        return f"0x{value.start:08x}..0x{value.stop:08x}"
    if not isinstance(value, str):
        raise Usage(f"memory: neither a range nor a name: {value!r}")
    return symbol_range(talk.symbols, value) if is_name(value) else value


def check_edits(scenario: Scenario) -> None:
    """Raises `Usage` if a run has edits that the command doesn't know: it has those of the input only."""
    is_changed = any(scenario.options.get(name, USUAL[name]) != USUAL[name] for name in OF_RUNS)
    if scenario.words or scenario.marks or is_changed:
        raise Usage("certify(any=..): beside it a run can have edits of its input only, and this one has others")


def certified(talk: Talk, options: List[str], step: Optional[int]) -> AnyCertificate:
    """Asks the program about the run of a talk."""
    check_edits(talk.scenario)
    with ExitStack() as held:
        try:
            given = held.enter_context(closing(Room("input", talk.scenario.input)))
            image = talk.rooms["image"]
            words = [built_program(), "certify", *options, *isa_words(talk.isa), *talk.regions.words, f"--input={given.path}"]
            words += [f"--step={step}"] if step is not None else [f"--step={talk.limit}"]
            status, out, said = outcome([*words, image.path], lends=[given.number, image.number])
        except (Fault, OSError) as fault:
            raise Error(str(fault)) from None
    if status not in STATUSES:
        raise of_end(Ended(status, said), talk.names)
    return AnyCertificate(out.decode("utf-8", "surrogateescape").rstrip("\n"), step is not None)


def options_of(talk: Talk, bytes_of: Bytes, areas: Areas, known: Known) -> List[str]:
    """Returns the options that say which bytes are any, and what may be known of them."""
    options = [f"--any={bytes_word(value)}" for value in each(bytes_of)]
    options += [f"--any-memory={area_word(value, talk)}" for value in each(areas)]
    return options + [f"--reveal={at},0x{address:x},{length}" for at, address, length in known]
