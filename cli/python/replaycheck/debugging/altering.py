"""Alterations of the run at the step where it stands: lines of `replaycheck look` for what gdb sets, and which of them stand."""
from dataclasses import dataclass, field
from typing import List

from replaycheck.endings import Fault
from replaycheck.looking import Seen, TOP
from replaycheck.scripting.scenarios import number
from replaycheck.sessions import MARKS

from .registers import CONTROLS, NAMES, PC, SHADOWS, STEP, value_of

SIZES = (4, 2, 1)  # bytes that one line writes
ENDED = "the program has ended: nothing changes any more"
NO_ZERO = "zero stays 0"
ABOVE = "no bytes lie above 2^32"
NO_STEP = "monitor goto N goes to a step"
NO_CONTROL = "no edit sets a control register: only an instruction of the program does"


class Unaltered(Fault):
    """The run can't be altered so, in words."""


@dataclass
class Stop:
    """A step at which gdb has set registers, and what they were before each of them."""

    step: int
    seen: List[Seen] = field(default_factory=list)


class Alterer:
    """Alters a run at its step."""

    def __init__(self, run):
        self.run, self.stop = run, Stop(-1)
        self.calls: List[Stop] = []  # where gdb has set pc, as it does to call a function

    def standing(self):
        """The lines whose alterations stand, in the order in which `unmark` counts them; and the other edits."""
        listed, others = [], []
        for line in self.run.edits:
            word, *more = line.split(" ")
            if word == "unmark":
                del listed[int(more[0], 16 if more[0].startswith("0x") else 10)]
            else:
                (listed if word in MARKS else others).append(line)
        return listed, others

    def writes(self):
        """The alterations that stand and write memory: of each its step and the range of bytes. Bits are inverted in a word."""
        for line in self.standing()[0]:
            word, step, place, *more = line.split(" ") + [""]
            if word == "write" or word == "flip" and place[0].isdigit():
                yield number(step), (number(place), number(more[0]) if word == "write" else SIZES[0])

    def alter(self, lines):
        """Gives lines that alter the run here: all of them, or none if one is rejected."""
        if not self.run.registers().runs:
            raise Unaltered(ENDED)
        for count, line in enumerate(lines):
            reply = self.run.edit(line)
            if reply != "ok":
                self.take_back(count)
                raise Unaltered(reply)

    def take_back(self, count):
        """Takes back a number of alterations, the last ones."""
        last = len(self.standing()[0])
        for index in reversed(range(last - count, last)):
            self.run.edit(f"unmark {index}")

    # ---- what gdb sets

    def set_register(self, number, value):
        """Sets one of the registers that gdb is told of. A value that stands and is defined already makes no line."""
        seen, step = self.run.registers(), self.run.step
        if value_of(number, self.run) == value and not (number < PC and seen.undefined[number]):
            return
        if number == STEP:
            raise Unaltered(NO_STEP)
        if number in (0, SHADOWS):
            raise Unaltered(NO_ZERO)
        if number >= CONTROLS:
            raise Unaltered(NO_CONTROL)
        if self.stop.step != step:
            self.stop = Stop(step)
        self.stop.seen.append(seen)
        if number == PC:
            self.set_pc(value)
        elif number < PC:
            self.alter([f"set {step} x{number} 0x{value:08x}"])
        else:
            self.alter([set_bits(step, number - SHADOWS, seen.values[number - SHADOWS], value)])

    def set_pc(self, value):
        """Goes elsewhere. Behind a call of a function gdb sets the registers back whose values have changed, pc as the last of them, and
        leaves alone what it holds to be unchanged, so that undefined bits are set back here."""
        seen, step = self.run.registers(), self.run.step
        before = next((earlier for call in reversed(self.calls) if call.step < step for earlier in reversed(call.seen)
                       if earlier.pc == value and earlier.values == seen.values), None)
        lines = [f"set {step} pc 0x{value:08x}"]
        if before is not None:
            lines += [set_bits(step, number, seen.values[number], bits) for number, bits in enumerate(before.undefined)
                      if bits != seen.undefined[number]]
        self.alter(lines)
        if before is None:
            self.calls.append(self.stop)

    def write(self, address, data):
        """Writes memory, in pieces of four bytes, two and one."""
        if address + len(data) > TOP:
            raise Unaltered(ABOVE)
        lines, step = [], self.run.step
        while data:
            size = next(size for size in SIZES if size <= len(data))
            lines.append(f"write {step} 0x{address:08x} {size} 0x{int.from_bytes(data[:size], 'little'):0{2 * size}x}")
            address, data = address + size, data[size:]
        self.alter(lines)


def set_bits(step, number, value, bits):
    """The line that sets undefined bits of a register."""
    return f"set {step} x{number} 0x{value:08x} 0x{bits:08x}"


def register_of(word):
    """A register as lines name it: `a0` and `$a0` are x10."""
    name = word[1:] if word.startswith("$") else word
    return f"x{NAMES.index(name)}" if name in NAMES else "x8" if name == "s0" else word
