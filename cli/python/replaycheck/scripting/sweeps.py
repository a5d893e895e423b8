"""A sweep for scripts: each edit of a kind, with its outcome."""
from __future__ import annotations

from contextlib import ExitStack, closing
from typing import Dict, Iterable, Iterator, List, Optional, Tuple, Union

from replaycheck import hindering
from replaycheck.children import Child, piped
from replaycheck.endings import Fault
from replaycheck.exploring import outcomes
from replaycheck.exploring.tables import Table
from replaycheck.guest.elf import refusals
from replaycheck.guest.lines import BadTable
from replaycheck.guest.regions import USUAL_MOVED, USUAL_OUTPUT, USUAL_REGIONS, Regions
from replaycheck.guest.symbols import Symbols
from replaycheck.options import USUAL_STEP
from replaycheck.programs import ISAS, built_program, isa_words, unit_of
from replaycheck.refusals import Ended
from replaycheck.scripting.errors import Error, Usage, of_end
from replaycheck.scripting.files import Room, Source, name_of, read
from replaycheck.scripting.regions import check_heap, regions_for
from replaycheck.scripting.scenarios import EDITS

# Places: a text `A..B` or `A`, a number, or a range. Values: one of the words that `replaycheck sweep` knows, or numbers.
Places = Union[str, int, range]
Values = Union[str, Iterable[int]]
# Fault models: a text with commas, or their names.
Names = Union[str, Iterable[str]]


class Outcome:
    """How runs of a sweep ended, with their errors and leaks. `number` is that in the table, 0 for the outcome of the unedited run; `text`
    are the lines of the table, and `state` is the first of them. `parts` are errors and leaks, each in one line; `news` are those, and
    stops, that the unedited run doesn't have, the worst first. `has_errors` says whether there is an error, which a leak isn't."""

    def __init__(self, number: int, text: bytes, unedited: bytes) -> None:
        read_out = outcomes.Outcome(number, text)
        self.number, self.text, self.state = number, text.decode("ascii"), read_out.state
        self.parts: List[str] = [part.text for part in read_out.parts]
        self.news: List[str] = [part.text for part in read_out.news(outcomes.Outcome(0, unedited))]
        self.has_errors: bool = read_out.has_errors

    def __repr__(self) -> str:
        return f"<outcome {self.number}: {', '.join([self.state, *self.parts])}>"


def sweep(program: Source, input: Optional[Source] = None, suppressions: Optional[Source] = None, *,  # noqa: A002
          bytes: Optional[Places] = None, values: Optional[Values] = None, words: Optional[Places] = None,  # noqa: A002
          words_values: Optional[Values] = None, function: Optional[str] = None, at: Optional[Places] = None,
          faults: Optional[Names] = None, code: Optional[Places] = None, pairs: bool = False, step: int = USUAL_STEP,
          with_output: bool = False, isa: str = ISAS[0], heap_region: int = USUAL_REGIONS.heap,
          stack_region: Tuple[int, int] = USUAL_REGIONS.stack, most_moved: int = USUAL_MOVED,
          most_output: Optional[int] = USUAL_OUTPUT) -> Iterator[Tuple[str, Outcome]]:
    """Yields each edit of a sweep as a line of a session, with its outcome at a step. `bytes` of the input get `values`, and `words` of the
    program, or those of a `function`, get `words_values`; without all of these each byte of the input gets each other value. `at` are
    steps before which the machine is altered, by each of the models `faults`: only at addresses of `code`, or at those of a `function`;
    with `pairs`, two instructions are left out as well. An edit of two lines has `; ` between them. `isa`, `heap_region`,
    `stack_region`, `most_moved` and `most_output` are as of a `Run`.

    # Errors

    As those of a `Run`, when the first edit is asked for."""
    regions = regions_for(isa, heap_region, stack_region, most_moved, most_output)
    sources = {"image": program, "input": input, "suppressions": suppressions}
    there = {what: source for what, source in sources.items() if source is not None}
    data = {what: read(what, source) for what, source in there.items()}
    names = {what: name_of(what, source) for what, source in there.items()}
    if function is not None and at is None:
        words = words_of(data["image"], function, names["image"], isa, regions)
    elif function is not None:
        code = words_of(data["image"], function, names["image"], isa, regions)
    given = {"bytes": places_of(bytes), "values": values_of(values), "words": places_of(words), "words-values": values_of(words_values),
             "at": places_of(at), "faults": faults if faults is None or isinstance(faults, str) else ",".join(faults),
             "code-range": places_of(code), "pairs": "skip" if pairs else None}
    options = [f"--{name}={text}" for name, text in given.items() if text is not None]
    options += [*isa_words(isa), *regions.words, f"--step={step}", *(["--with-output"] if with_output else [])]
    names |= {"bytes": f"bytes {given['bytes']}", "words": f"words {given['words']}"}
    yield from rows_of(data, options, names)


def hinders(line: str, *, isa: str = ISAS[0], heap_region: int = USUAL_REGIONS.heap) -> bool:
    """Returns whether an edit is in the way of a clean run's guarantee, by which nothing that uninitialised, freed or unmapped memory holds
    can change the run. `line` is as `sweep` yields it; `isa` and `heap_region` are as of a `Run`.

    # Errors

    `Usage` for a text that is no edit, an unknown instruction set, and an address at which no heap is."""
    check_heap(isa, heap_region)
    try:
        if all(edit.split(" ")[0] in EDITS for edit in line.split("; ")):
            return hindering.hinders(line, isa, heap_region)
    except (ValueError, IndexError):
        pass
    raise Usage(f"no edit: {line!r}")


def places_of(places: Optional[Places]) -> Optional[str]:
    """Returns places as an option has them."""
    if isinstance(places, range):
        if not places or places.step != 1:
            raise Usage(f"no range of places: {places!r}")
        return f"{places[0]}..{places[-1]}"
    return None if places is None else str(places)


def values_of(values: Optional[Values]) -> Optional[str]:
    return values if values is None or isinstance(values, str) else ",".join(map(str, values))


def words_of(data: bytes, name: str, file: str, isa: str, regions: Regions) -> Optional[str]:
    """Returns the words of a function as an option has them; none of a file that the program rejects, which says why."""
    if refusals(data, regions):
        return None
    symbols = Symbols(data, file)
    at = symbols.address(name)
    size = max((symbols.elf.extent(function) for function in symbols.elf.functions if function.value == at), default=0)
    unit = unit_of(isa)
    if size < unit:
        raise Usage(f"{file}: {name} is no function")
    return f"0x{at:08x}..0x{at + size // unit * unit - unit:08x}"


def rows_of(data: Dict[str, bytes], options: List[str], names: Dict[str, str]) -> Iterator[Tuple[str, Outcome]]:
    """Yields the rows of the table that the program makes of files."""
    with ExitStack() as held:
        try:
            rooms = {what: held.enter_context(closing(Room(what, content))) for what, content in data.items()}
            words = [built_program(), "sweep", *options]
            words += [f"--{option}={rooms[what].path}" for what, option in (("input", "input"), ("suppressions", "supp")) if what in rooms]
            child = piped([*words, rooms["image"].path], [room.number for room in rooms.values()])
        except (Fault, OSError) as fault:
            raise Error(str(fault)) from None
        held.callback(leave, child)
        child.close_input()
        try:
            yield from edits_of(Table(child.stdout, "the sweep"))
        except BadTable as fault:
            status = child.wait()
            raise of_end(Ended(status, child.said()), names) if status else Error(str(fault)) from None


def leave(child: Child) -> None:
    child.kill()
    child.leave()


def edits_of(table: Table) -> Iterator[Tuple[str, Outcome]]:
    found: List[Outcome] = []
    for place in table.places():
        for number in range(len(found), len(table.outcomes)):
            found.append(Outcome(number, table.outcomes[number], table.outcomes[0]))
        for value, number in place.edits.items():
            yield place.range.line(place.at, value), found[number]
