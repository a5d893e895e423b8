"""A recorded run for scripts: it is edited, asked for reports, and looked at."""
from __future__ import annotations

import contextlib
import operator
import os
import warnings
from typing import Iterator, List, Optional, Tuple, Union, overload

from replaycheck.guest.regions import USUAL_MOVED, USUAL_OUTPUT, USUAL_REGIONS
from replaycheck.looking import ALL, MOST_SEEN, TOP
from replaycheck.options import FURTHEST_STEP, LAST_STEP
from replaycheck.programs import ISAS
from replaycheck.reports import Address, Lines, NoReport, Report, read_report
from replaycheck.scripting.any_bytes import AnyCertificate, Areas, Bytes, Known, certified, options_of
from replaycheck.scripting.errors import Error, Usage
from replaycheck.scripting.files import Source
from replaycheck.scripting.inputs import Input
from replaycheck.scripting.regions import regions_for
from replaycheck.scripting.scenarios import EDITS, Scenario
from replaycheck.scripting.steps import Certificate, Happened, Memory, Place, Registers, Step
from replaycheck.scripting.talks import Talk

WORD = 4
KINDS = ("run", "read", "write", "shadow", "error")
NAMED = {name: f"x{number}" for number, name in enumerate(Registers._fields) if number}
ALTERED = {**NAMED, **{name: name for name in NAMED.values()}, "fp": NAMED["s0"], "pc": "pc"}  # registers that can be set, by their names
MOST_WRITTEN = 4096  # bytes of output that one look returns


def number(name: str, value: int, least: int = 0, greatest: int = TOP - 1) -> int:
    """Returns a number that a line can have.

    # Errors

    `Usage` for any other value."""
    try:
        found = operator.index(value)
    except TypeError:
        raise Usage(f"{name}: no whole number: {value!r}") from None
    if not least <= found <= greatest:
        raise Usage(f"{name}: {found}: not a number from {least} to {greatest}")
    return found


class Run:
    """A run of a program on an input. `program`, `input` and `suppressions` are paths, or bytes that take the place of a file; each is read
    once, when the run is opened. `isa` is the instruction set that the program is read for. `heap_region` is where the heap's region
    begins, and `stack_region` where the stack's begins and ends. One call moves at most `most_moved` bytes, and the program writes at most
    `most_output` in all, with None for no limit. `limit` is the last step that there is. Edits change the run, and reports and looks show
    it with all of them. It is a context manager; `close` ends it otherwise. A run belongs to one thread at a time, and to the process that
    opened it; different runs don't share anything.

    # Errors

    `Refused` if the program rejects a file, `Unreadable`, `OutOfMemory`, `Ended`; `Error` if the program isn't built."""

    _talk: Optional[Talk] = None

    def __init__(self, program: Source, input: Optional[Source] = None,  # noqa: A002
                 suppressions: Optional[Source] = None, *, isa: str = ISAS[0],
                 heap_region: int = USUAL_REGIONS.heap, stack_region: Tuple[int, int] = USUAL_REGIONS.stack,
                 most_moved: int = USUAL_MOVED, most_output: Optional[int] = USUAL_OUTPUT, limit: int = LAST_STEP) -> None:
        regions = regions_for(isa, heap_region, stack_region, most_moved, most_output)
        self._talk = Talk(program, input, suppressions, isa, regions, number("limit", limit, 1, FURTHEST_STEP))
        self._name = self._talk.names["image"]

    def __repr__(self) -> str:
        return f"<{type(self).__name__} of {self._name}{'' if self._talk else ', closed'}>"

    def __enter__(self) -> Run:
        self._open()
        return self

    def __exit__(self, *_: object) -> None:
        self.close()

    def __del__(self) -> None:
        if self._talk is not None and self._talk.owner == os.getpid():
            warnings.warn(f"unclosed run: {self!r}", ResourceWarning, source=self, stacklevel=2)
            self.close()

    def close(self) -> None:
        """Ends the run, and the program that it asks. To close it again does nothing."""
        talk, self._talk = self._talk, None
        if talk is not None:
            talk.close()

    def _open(self) -> Talk:
        if self._talk is None:
            raise Usage(f"{self!r}: it was closed")
        return self._talk

    @property
    def _scenario(self) -> Scenario:
        return self._open().scenario

    # ---- edits

    @property
    def input(self) -> Input:
        """The input: a sequence of bytes. To set, append or pop a byte is an edit."""
        return Input(self)

    def edit(self, *lines: str) -> None:
        """Makes edits, each a line of a session. If one is rejected, none of them is made.

        # Errors

        `Refused`, `OutOfMemory`, `Ended`, and `Usage` for what isn't the line of an edit."""
        talk = self._open()
        before = talk.scenario
        try:
            for line in lines:
                talk.change(edit_of(line))
        except BaseException:
            talk.become(before)
            raise

    @contextlib.contextmanager
    def edited(self, *lines: str) -> Iterator[Run]:
        """The run with edits, for a block. After the block it is as before: all edits that were made in it are taken back, also after an
        exception."""
        talk = self._open()
        before = talk.scenario
        try:
            self.edit(*lines)
            yield self
        finally:
            talk.become(before)

    def patch(self, address: Place, word: int) -> None:
        """Puts another word into the loaded program: an instruction, or the first value of a variable."""
        self.edit(f"patch 0x{self._address(address):x} 0x{number('word', word):08x}")

    def patch16(self, address: Place, half: int) -> None:
        """Puts another half into the loaded program: an instruction of 16 bits, or half of another one.

        # Errors

        `Refused` with the number 2 if the run's instruction set has no instructions of 16 bits."""
        self.edit(f"patch16 0x{self._address(address):x} 0x{number('half', half):04x}")

    def mark(self, step: int, address: Place, length: int, kind: str) -> int:
        """Marks bytes from a step on as "undefined", "noaccess" or "defined". Returns the number of the mark, for `unmark`."""
        where = f"0x{self._address(address):x} {number('length', length)}"
        return self._marked(f"mark {number('step', step)} {where} {kind}")

    def skip(self, step: int) -> int:
        """Leaves out the instruction of a step, this once. Returns its number among the marks, as the next three do."""
        return self._marked(f"skip {number('step', step)}")

    def set(self, step: int, register: str, value: int, undefined: int = 0) -> int:
        """Sets a register, or "pc", just before a step, with these undefined bits."""
        bits = f" 0x{number('undefined', undefined):08x}" if undefined else ""
        return self._marked(f"set {number('step', step)} {register_of(register)} 0x{number('value', value):08x}{bits}")

    def write(self, step: int, address: Place, value: int, length: int = WORD) -> int:
        """Writes 1, 2 or 4 bytes just before a step, the lowest first."""
        where = f"0x{self._address(address):x} {number('length', length)}"
        return self._marked(f"write {number('step', step)} {where} 0x{number('value', value):x}")

    def flip(self, step: int, place: Place, mask: int) -> int:
        """Turns bits of a register, of "pc" or of the four bytes from an address on, just before a step. A name is a register's where there
        is one."""
        where = ALTERED[place] if isinstance(place, str) and place in ALTERED else f"0x{self._address(place):x}"
        return self._marked(f"flip {number('step', step)} {where} 0x{number('mask', mask):08x}")

    def _marked(self, line: str) -> int:
        """Makes an edit that `unmark` removes by its number, which is returned."""
        self.edit(line)
        return len(self._scenario.marks) - 1

    def unmark(self, index: int) -> None:
        """Removes a mark, or what was altered at a step. Later ones move down."""
        self.edit(f"unmark {number('index', index)}")

    def option(self, name: str, value: Union[int, str]) -> None:
        """Sets an option of a session: "redzone", "queue", "callers" or "show"."""
        self.edit(f"option {name} {value}")

    def supp_add(self, words: str) -> None:
        """Adds a suppression: its kind, its extra line if it has one, and its frames, between spaces."""
        self.edit(f"supp add {words}")

    def supp_on(self, index: int) -> None:
        """Switches a suppression on: those of the file come first, from 0."""
        self.edit(f"supp on {number('index', index)}")

    def supp_off(self, index: int) -> None:
        """Switches a suppression off."""
        self.edit(f"supp off {number('index', index)}")

    # ---- reports

    @property
    def limit(self) -> int:
        """The last step that there is."""
        return self._open().limit

    def report(self, step: Optional[int] = None) -> Report:
        """Returns the report at a step: without one, at the last that there is. Its `text` is what `replaycheck run` prints."""
        talk = self._at(step)
        rows = talk.accepted("report")
        try:
            report = read_report(Lines(rows))
        except NoReport as fault:
            raise Error(str(fault)) from None
        report.text = "".join(row + "\n" for row in rows)
        return report

    def output(self, step: Optional[int] = None) -> bytes:
        """Returns the bytes that the program has written before a step.

        # Errors

        `Refused` with the number 2 if the program that is asked doesn't have this look."""
        written = self.report(step).written
        talk, parts = self._at(step), []
        for begin in range(0, written, MOST_WRITTEN):
            row = talk.look(f"output {begin} {min(MOST_WRITTEN, written - begin)}")[0]
            parts.append(bytes.fromhex(row.partition(" ")[2]))
        return b"".join(parts)

    def sides(self, address: int, length: int, step: Optional[int] = None) -> dict[int, int]:
        """Returns what the run has done with each instruction of a range before a step, by its address: 1, it continued after it each time
        that it executed it, 2, it went elsewhere, 3, both. Instructions that it didn't execute aren't there.

        # Errors

        `Refused` with the number 6 for no bytes or an end above 2^32; with 2 if the program that is asked doesn't have this look."""
        talk: Talk = self._at(step)
        met: dict[int, int] = {}
        apart = 4 if talk.isa == ISAS[0] else 2
        for begin in range(address, address + max(length, 1), MOST_WRITTEN):
            digits = talk.look(f"sides {begin} {min(MOST_WRITTEN, address + length - begin)}")[0].partition(" ")[2]
            met.update((begin + apart * at, int(digit)) for at, digit in enumerate(digits) if digit != "0")
        return met

    @overload
    def certify(self, step: Optional[int] = None) -> Certificate: ...

    @overload
    def certify(self, step: Optional[int] = None, *, any: Bytes, memory: Areas = (), reveal: Known = ()  # noqa: A002
                ) -> AnyCertificate: ...

    @overload
    def certify(self, step: Optional[int] = None, *, any: Bytes = (), memory: Areas, reveal: Known = ()  # noqa: A002
                ) -> AnyCertificate: ...

    def certify(self, step: Optional[int] = None, *, any: Bytes = (), memory: Areas = (), reveal: Known = ()  # noqa: A002
                ) -> Union[Certificate, AnyCertificate]:
        """Returns whether anything that uninitialised, freed or unmapped memory holds has an influence on the run up to a step, without
        one up to `limit`. With `any` bytes of the input, or bytes of `memory`: whether the run is the same for each value of them. What is
        in `reveal`, steps with an address and a number of bytes, may then be known. Such a run has no edits but of its input.

        # Errors

        `Usage` for bytes that there are not, and beside other edits."""
        at = None if step is None else number("step", step)
        options = options_of(self._open(), any, memory, reveal)
        if options:
            return certified(self._open(), options, at)
        return Certificate(self._at(step).look("certify")[0], step is not None)

    # ---- looks

    def at(self, step: int) -> Step:
        """Returns a step, before its instruction is executed.

        # Errors

        What is asked of it fails with `Refused` and the number 5 if it is above `limit`."""
        return Step(self, number("step", step))

    def _at(self, step: Optional[int]) -> Talk:
        talk = self._open()
        talk.at(talk.limit if step is None else number("step", step))
        return talk

    def _seen(self, step: int) -> List[str]:
        return self._open().registers_at(step)

    def _last_pc(self) -> Address:
        """Returns where a program that has exited called its end."""
        return Address(self._seen(max(0, self.end - 1))[0].rpartition(" ")[2], 16)

    def _memory(self, step: int, address: Place, length: int) -> Memory:
        begin, size = self._address(address), number("length", length, 1)
        if begin + size > TOP:
            raise Usage(f"length: {size}: bytes from {begin} on end above 2^32")
        talk, data, undefined = self._at(step), [], []
        for at in range(begin, begin + size, MOST_SEEN):
            rows = talk.look(f"memory 0x{at:x} {min(MOST_SEEN, begin + size - at)}")
            data.append(bytes.fromhex(rows[0].split()[1]))
            digits = rows[1].split()[1]
            pairs = (digits[i:i + 2] for i in range(0, len(digits), 2))
            undefined += [None if pair == "__" else int(pair, 16) for pair in pairs]
        return Memory(begin, b"".join(data), tuple(undefined))

    # ---- which step does something

    def next(self, kind: str, address: Optional[Place] = None, length: int = 1, start: int = 0,
             end: Optional[int] = None) -> Optional[int]:
        """Returns the first step from `start` on and below `end` that does something with bytes, or None. "run" executes an instruction
        there, "read" and "write" access one, "shadow" changes what is known of one, "error" executes an instruction there and makes an
        error. Without an address all memory is meant, and without an end all steps up to `limit`."""
        return self._search("next", kind, address, length, start, self.limit if end is None else end)

    def last(self, kind: str, address: Optional[Place] = None, length: int = 1, before: Optional[int] = None,
             start: int = 0) -> Optional[int]:
        """Returns the last step below `before`, or below `limit`, and from `start` on that does this."""
        return self._search("last", kind, address, length, self.limit if before is None else before, start)

    def last_write(self, address: Place, length: int = 1, before: Optional[int] = None) -> Optional[int]:
        """Returns the last step before another one that writes one of some bytes, or None."""
        return self.last("write", address, length, before)

    def _search(self, way: str, kind: str, address: Optional[Place], length: int, step: int, bound: int) -> Optional[int]:
        if kind not in KINDS:
            raise Usage(f"kind: {kind!r}: none of {', '.join(KINDS)}")
        begin, size = ALL if address is None else (self._address(address), number("length", length, 1))
        row = self._at(step).look(f"{way} {kind} 0x{begin:x} {size} {number('bound', bound)}")[0]
        return int(row.split()[1]) if row.startswith("step ") else None

    def calls(self, function: Place) -> Iterator[int]:
        """Yields the steps at which a function is called: those that execute its first instruction."""
        step = self.next("run", function, WORD)
        while step is not None:
            yield step
            step = self.next("run", function, WORD, step + 1)

    def happened(self, start: int = 0, end: Optional[int] = None) -> List[Happened]:
        """Returns what happens in the steps from `start` on and below `end`, or below `limit`, in order: calls and returns, calls of the
        heap, input that is read and output that is written."""
        first, last = number("start", start), self.limit if end is None else end
        return [happened_in(row.split()) for row in self._at(last).listed("calls", first, last)]

    @property
    def end(self) -> int:
        """The step at which the program has ended, or `limit` if it still runs there."""
        return self._open().end()

    # ---- names

    def symbol(self, name: str) -> Address:
        """Returns the address of a symbol.

        # Errors

        `Usage` if the program's file doesn't have it."""
        return self._open().symbols.address(name)

    def function_at(self, address: int) -> str:
        """Returns the name of the function at an address, as a report has it: `???` if there is none."""
        return self._open().symbols.function_at(number("address", address))

    def _address(self, place: Place) -> Address:
        """Returns a place as an address: a symbol by its name, or a number."""
        return self.symbol(place) if isinstance(place, str) else Address(number("address", place))


def register_of(name: str) -> str:
    """Returns a register by its name in the lines of a session.

    # Errors

    `Usage` for a name that is none of a register that can be set."""
    if name not in ALTERED:
        raise Usage(f"register: {name!r}: none of those that can be set")
    return ALTERED[name]


def happened_in(words: List[str]) -> Happened:
    """Returns what the words of a row say that happens in a step."""
    step, what, *rest = words
    if what in ("input", "output"):
        return Happened(int(step), what, count=int(rest[0]))
    return Happened(int(step), what, Address(rest[0], 16) if len(rest) > 1 else None, int(rest[-1]))


def edit_of(line: str) -> str:
    """Returns the line of an edit without its end.

    # Errors

    `Usage` for more than one line, and for a line that isn't an edit."""
    if not isinstance(line, str):
        raise Usage(f"no line: {line!r}")
    text = line.rstrip("\r\n")
    try:
        text.encode("utf-8", "surrogateescape")
    except UnicodeEncodeError as fault:
        raise Usage(f"no line: {line!r}: {fault}") from None
    if "\n" in text or "\r" in text:
        raise Usage(f"two lines in one: {line!r}")
    if text.split(" ")[0] not in EDITS:
        raise Usage(f"no edit: {line!r}: one begins with {', '.join(EDITS)}")
    return text
