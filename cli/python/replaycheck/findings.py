"""What a report finds fault with, as other programs' formats have it: errors, listed leaks, and a stop."""
from __future__ import annotations

from dataclasses import dataclass

from replaycheck.allocators import is_of_allocator, is_of_library
from replaycheck.demangling import Demangler
from replaycheck.endings import Fault
from replaycheck.guest.regions import USUAL_REGIONS
from replaycheck.places import NoPlaces, Place, Places
from replaycheck.programs import ATOMIC, USUAL, unit_of
from replaycheck.reports import LEAK_KINDS, Address, Frame, Report

RUNNING = "Running"
# The statuses with which `exec` ends where a run still runs, and where a write found no room.
STILL_RUNNING, LOST = 124, 123
STOPS = {"jump": "a jump to where no memory is", "break": "an EBREAK"}
RULES = {
    "Addr1": "Invalid read or write of one byte",
    "Addr2": "Invalid read or write of two bytes",
    "Addr4": "Invalid read or write of four bytes",
    "Value4": "Use of an uninitialised value as an address",
    "Cond": "Conditional jump that depends on uninitialised values",
    "Param": "Call of the environment with uninitialised or unaddressable bytes",
    "Free": "Invalid free() or realloc()",
    "Jump": "Jump to an invalid address",
    "Leak": "Blocks of the heap that are lost or were not freed",
    "Stop": "A stop that is no exit",
    RUNNING: "A program that still runs at the last step, so that what it does later isn't checked",
}


def is_at_atomic(state, isa):
    """Whether a run that has stopped `misaligned` has met an atomic instruction whose address is no multiple of 4. Any other such stop is
    at an address at which no instruction of the set begins."""
    return isa == ATOMIC and state.address % 2 == 0


def stop_text(state, isa):
    """Why a run has stopped."""
    if state.why == "illegal":
        return f"stopped: no instruction of {isa.upper()}"
    if state.why != "misaligned":
        return f"stopped: {STOPS[state.why]}"
    if is_at_atomic(state, isa):
        return "stopped: an atomic instruction at an address that is no multiple of 4"
    return f"stopped: a jump to an address that is no multiple of {unit_of(isa)}"


class Call:
    """A frame with its source line. An inlined call is one of its own, at the address of its caller's. Each is made
    once. `function` is its name as it is shown, and `symbol` that of the symbol table."""

    def __init__(self, address: Address, symbol: str, function: str, place: Place | None):
        self.address, self.symbol, self.function, self.place = address, symbol, function, place
        self.is_of_allocator, self.is_of_library = is_of_allocator(symbol), is_of_library(symbol)
        self.text = f"{function} ({place or address})"

    def __str__(self):
        return self.text


def outside(calls: list[Call]):
    """The calls of a trace that are neither an allocator's nor a library's. If a trace begins in an allocator, what that has called isn't
    outside either: `operator new` may have functions of its own, which call `malloc`."""
    begin = 0
    if any(call.is_of_allocator for call in calls if call.address == calls[0].address):
        begin = max(at for at, call in enumerate(calls, 1) if call.is_of_allocator)
    return [call for call in calls[begin:] if not call.is_of_allocator and not call.is_of_library]


@dataclass
class Finding:
    """One of the rules, whether it counts as an error, its text and trace, and what is said of an address or
    a block."""

    rule: str
    counts: bool
    text: str
    times: int
    trace: list[Call]
    note: str | None = None
    note_trace: list[Call] | None = None

    def lead(self):
        """The innermost call that has a source line and isn't an allocator's or a library's own, or else the innermost one."""
        placed = [call for call in self.trace if call.place]
        own = [call for call in outside(self.trace) if call.place]
        return (own or placed or self.trace)[0]

    def title(self):
        name = self.lead().function
        return self.text if name == "???" else f"{self.text} in {name}"


class Shown:
    """A report, the files of its run, and how it is shown: where instructions stand, which leaks count as errors, which heap the file has,
    if that is known, and whether an unseen heap counts as an error. Of a run by `exec`, `status` is that with which it ends, and
    `error_exitcode` the one for errors."""

    def __init__(self, report: Report, file: str, given: str | None, leaks_that_count, heap=None, needs_heap=False, isa=USUAL,
                 regions=USUAL_REGIONS):
        self.report, self.file, self.given, self.isa, self.regions = report, file, given, isa, regions
        self.leaks_that_count, self.heap, self.needs_heap = leaks_that_count, heap, needs_heap
        self.made: dict[tuple[Address, str], list[Call]] = {}
        self.places: Places | NoPlaces | None = None
        self.names: Demangler | None = None
        self.verdict, self.status, self.error_exitcode = "", None, 0

    def show(self, paths, is_demangled):
        """Finds the places of all addresses, and the names that all functions have in the source. Returns what can't be found, in lines: a
        report can do without it."""
        traces = [trace for error in self.report.errors for trace in (error.trace, error.note.trace if error.note else [])]
        frames = [frame for trace in [*traces, *(leak.trace for leak in self.report.leaks)] for frame in trace]
        addresses = [frame.address for frame in frames] + ([] if self.report.state.address is None else [self.report.state.address])
        missing, self.names = [], Demangler(is_demangled)
        try:
            self.places = Places(self.file, paths)
            self.places.learn(addresses)
        except Fault as fault:
            missing.append(f"no source lines: {fault}")
            self.places = NoPlaces()
            self.places.learn(addresses)
        own = [self.places.name(frame.address, frame.name) for frame in frames]
        self.names.learn(own + [place.function for told in self.places.known.values() for place in told])
        return missing + ([f"no names as in the source: {self.names.fault}"] if self.names.fault else [])

    @property
    def heap_notice(self):
        """What a user has to know of a heap that goes unseen; nothing of any other."""
        return self.heap.notice(self.file) if self.heap and self.heap.is_unseen else ""

    @property
    def was_checked(self):
        """Whether all was checked that was asked for: to the program's end, and with a heap where one is needed."""
        return self.report.state.name != "running" and not (self.needs_heap and self.heap_notice)

    @property
    def failed_status(self):
        """The status of a run by `exec`, in words, if it isn't 0 and nothing else says why; otherwise nothing."""
        state, findings = self.report.state, [finding for finding in self.findings() if finding.counts] if self.status else []
        is_of_findings = self.status == self.error_exitcode and findings or any(finding.rule in ("Stop", RUNNING) for finding in findings)
        if not self.status or is_of_findings or self.needs_heap and self.heap_notice:
            return ""
        return f"exit status {self.status}" + (": output was lost" if self.status == LOST and state.status == 0 else "")

    def calls(self, trace):
        """The calls of a trace, with inlined ones."""
        return [call for frame in trace for call in self.calls_at(frame.address, frame.name)]

    def calls_at(self, address, name):
        if (address, name) not in self.made:
            places = self.places.at(address) or [None]
            symbols = [*(place.function for place in places[:-1]), self.places.name(address, name)]
            self.made[address, name] = [Call(address, symbol, self.names.name(symbol), place) for symbol, place in zip(symbols, places)]
        return self.made[address, name]

    def findings(self):
        for error in self.report.errors:
            note = error.note and f"Address {error.note.address} is {error.note.place}"
            yield Finding(error.kind, True, error.text, error.count, self.calls(error.trace), note,
                          self.calls(error.note.trace) if error.note else [])
        for leak in self.report.leaks:
            text = f"{leak.size} bytes in {leak.blocks} blocks are {leak.kind}"
            yield Finding("Leak", LEAK_KINDS[leak.kind] in self.leaks_that_count, text, 1, self.calls(leak.trace))
        state = self.report.state
        if state.name == "stopped":
            yield Finding("Stop", True, stop_text(state, self.isa), 1, self.calls([self.frame_at(state.address)]))
        if state.name == "running" and self.status in (None, STILL_RUNNING):  # at rest it has ended, with any other status
            text = f"still running at step {self.report.step}"
            yield Finding(RUNNING, True, text, 1, self.calls([self.frame_at(state.address)]))

    def frame_at(self, address):
        places = self.places.at(address)
        return Frame(address, places[-1].function if places else "???")
