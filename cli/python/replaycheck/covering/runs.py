"""What runs did at each place of a program's code, as `replaycheck look` says."""
from __future__ import annotations

import bisect
from dataclasses import dataclass
from typing import Dict, List

from replaycheck.endings import Fault
from replaycheck.sessions import Session

MOST_ASKED = 4096  # bytes of one look
FEW = 16  # parts of which each is asked for
WENT_ON, WENT_ELSEWHERE = 1, 2  # the bits of a digit that a look returns


class Sides:
    """What the instruction at each place did in all runs so far: 0 if it was never executed, else WENT_ON, WENT_ELSEWHERE, or both."""

    def __init__(self, ranges, unit):
        self.unit = unit
        self.parts: Dict[int, bytearray] = {
            low: bytearray((min(low + MOST_ASKED, end) - low) // unit)
            for begin, end in ranges for low in range(begin, end, MOST_ASKED)}

    def length(self, begin):
        return len(self.parts[begin]) * self.unit

    def add(self, begin, digits):
        """Adds what a run did in a part: a digit for each place."""
        part = self.parts[begin]
        both = int.from_bytes(part, "big") | int.from_bytes(digits.encode("ascii").translate(VALUES), "big")
        self.parts[begin] = bytearray(both.to_bytes(len(part), "big"))

    def add_line(self, at, digits):
        """Adds what runs did at the places from an address on, as far as they are in a part."""
        begins = sorted(self.parts)
        for index, digit in enumerate(digits):
            address = at + self.unit * index
            begin = begins[bisect.bisect_right(begins, address) - 1] if digit != "0" and begins and begins[0] <= address else None
            if begin is not None and address < begin + self.length(begin):
                self.parts[begin][(address - begin) // self.unit] |= int(digit)

    def all(self) -> Dict[int, int]:
        """The addresses that were executed, in order, with what was done there."""
        return {begin + self.unit * index: side for begin, part in sorted(self.parts.items()) for index, side in enumerate(part) if side}


VALUES = bytes(max(byte - ord("0"), 0) & 3 for byte in range(256))


@dataclass(frozen=True)
class Made:
    """A run that was made: its input, if it has one, and its state at the chosen step: `exited 0`, `stopped jump`, `running`."""

    given: str
    state: str


def why(fault: Fault) -> str:
    """Why a run couldn't be made, in a line."""
    said = fault.said.strip().splitlines() or [str(fault)]
    return "; ".join(line.removeprefix("replaycheck: ") for line in said)


def parts_reached(session, sides: Sides, step) -> List[int]:
    """The parts in which a run executes something. Each look costs a run, and of many parts few are reached."""
    begins, found = sorted(sides.parts), []
    waiting = [(0, len(begins))]
    while waiting:
        low, high = waiting.pop()
        begin, last = begins[low], begins[high - 1]
        if session.accepted(f"look next run 0x{begin:x} {last + sides.length(last) - begin} {step}") == ["none"]:
            continue
        if high - low == 1:
            found.append(begin)
        else:
            middle = (low + high) // 2
            waiting += [(low, middle), (middle, high)]
    return found


def run(file, given, options, sides: Sides) -> Made:
    """Makes a run up to the chosen step, and adds what it did."""
    session = Session(file, given, command="look", isa=options.isa, regions=options.regions, limit=options.limit)
    reached = list(sides.parts) if len(sides.parts) <= FEW else parts_reached(session, sides, options.step)
    session.accepted(f"goto {options.step}")
    found = {begin: session.accepted(f"look sides 0x{begin:x} {sides.length(begin)}")[0] for begin in reached}
    state = session.accepted("look registers")[0].removeprefix("state ").partition(" 0x")[0]
    session.end()
    for begin, reply in found.items():
        sides.add(begin, reply.removeprefix("sides "))
    return Made(given, state)
