"""Which words of a file are code, as its symbols and its jumps tell, and what of it a run can't do."""
from __future__ import annotations

import bisect
from dataclasses import dataclass
from typing import NamedTuple

from replaycheck import programs
from replaycheck.guest import instructions as isa, rv32
from replaycheck.guest.code import joined, without
from replaycheck.guest.elf import HAS_CODE
from replaycheck.guest.encodings import Instruction, read

# How many words the walk through the start file takes, and the one back from mret.
FURTHEST, NEAR = 256, 32


class Found(NamedTuple):
    """An instruction of 32 bits: where it is, and its word."""

    address: int
    word: int


@dataclass(frozen=True)
class Replaced:
    """An instruction, the word that takes its place, and that one's text."""

    address: int
    word: int
    new: int
    text: str


class Stretch:
    """Addresses that may have code, in one piece of the file: the first that is a multiple of 4, or of another unit, the end, where they
    stand, and which words have been looked at, or which units."""

    def __init__(self, elf, start, end, unit):
        self.start, self.end = start + -start % unit, end
        self.place = elf.place(self.start, 0)
        self.seen = bytearray(max(end - self.start, 0) // unit)


class Code:
    """The words that are code: all of a function whose size is known, but for what a mapping symbol `$d` calls data;
    and what is reached from the entry, from functions without a size and from mapping symbols `$x`, by each next word,
    branch and jump. What follows a function of known size isn't reached from it. Closed ranges are never run."""

    unit, least = 4, programs.USUAL

    def __init__(self, elf, closed=()):
        self.elf = elf
        sections = joined((section.addr, section.addr + section.size) for section in elf.sections if section.flags & HAS_CODE)
        closed = joined([*closed, *(without([[0, 1 << 32]], sections) if sections else ())])
        self.stretches = [Stretch(elf, start, end, self.unit) for segment in elf.contents
                          for start, end in without([[segment.vaddr, segment.vaddr + segment.filesz]], closed)]
        self.starts = [stretch.start for stretch in self.stretches]
        self.sized = joined((function.value, function.value + function.size) for function in elf.functions if function.size)
        self.ends = {function.value + function.size for function in elf.functions if function.size}
        self.control, self.atomic, self.floating, self.compressed, self.unknown = [], [], [], [], []

    def stretch_at(self, address):
        """The stretch that has the word at an address, or None."""
        index = bisect.bisect_right(self.starts, address) - 1
        if index < 0 or address % self.unit or address + self.unit > self.stretches[index].end:
            return None
        return self.stretches[index]

    def instruction(self, address):
        """The instruction at an address that may have code, or None."""
        stretch = self.stretch_at(address)
        found = stretch and read(self.elf.data, stretch.place + address - stretch.start, stretch.end - address, self.unit)
        return Instruction(address, *found) if found else None

    def before(self, address):
        """The instructions before an address, the nearest first, as far as an address tells where they begin."""
        return [self.instruction(at) for at in range(address - 4, address - 4 * NEAR, -4)]

    def seen(self):
        """The instructions that were looked at, and None between those of which one doesn't follow the other."""
        for stretch in self.stretches:
            index = 0
            while (index := stretch.seen.find(1, index)) >= 0:
                yield None
                while index < len(stretch.seen) and stretch.seen[index]:
                    instruction = self.instruction(stretch.start + self.unit * index)
                    if instruction is None:
                        index += 1
                        break
                    yield instruction
                    index += instruction.length // self.unit

    def data(self):
        """What mapping symbols call data: from each up to the next one or the next function."""
        marks = {function.value: True for function in self.elf.functions}
        for symbol in self.elf.symbols:
            name = self.elf.strings[symbol.name:symbol.name + 2]
            if name in (b"$d", b"$x"):
                marks[symbol.value] = name == b"$x"
        places = sorted(marks)
        return joined((start, end) for start, end in zip(places, [*places[1:], 1 << 32]) if not marks[start])

    def seeds(self):
        """Addresses from which code is followed; of a function's words those that weren't reached before."""
        yield self.elf.entry
        for start, end in without(self.sized, self.data()):
            index = max(bisect.bisect_right(self.starts, start) - 1, 0)
            while index < len(self.starts) and self.starts[index] < end:
                yield from unseen(self.stretches[index], start, end, self.unit)
                index += 1
        yield from (function.value for function in self.elf.functions if not function.size)
        yield from (symbol.value for symbol in self.elf.symbols if self.elf.strings[symbol.name:symbol.name + 2] == b"$x")

    def follow(self):
        """Looks at each word of code once."""
        for seed in self.seeds():
            waiting = [seed]
            while waiting:
                waiting += self.line(waiting.pop())
        for found in (self.control, self.atomic, self.floating, self.compressed, self.unknown):
            found.sort()

    def line(self, address):
        """Follows code from an address as long as it goes on to the next word, and returns where else it goes."""
        stretch, elsewhere, before = self.stretch_at(address), [], 0
        if stretch is None:
            return elsewhere
        seen, data, away = stretch.seen, self.elf.data, stretch.place - stretch.start
        while address + 4 <= stretch.end and not seen[(address - stretch.start) // 4]:
            seen[(address - stretch.start) // 4] = 1
            word = int.from_bytes(data[address + away:address + away + 4], "little")
            if not isa.is_of_rv32im(word) and not self.is_instruction(address, word):
                return elsewhere
            if isa.may_jump(word):
                elsewhere += targets(address, before, word)
            address, before = address + 4, word
            if isa.ends(word) or address in self.ends:
                return elsewhere
        return elsewhere

    def is_instruction(self, address, word):
        """Notes a word that isn't RV32IM's. Is it an instruction at all?"""
        found = Found(address, word)
        if word in (0, rv32.UNIMP):
            return False
        if isa.control(word):
            self.control.append(found)
        elif rv32.opcode(word) == rv32.ATOMIC:
            self.atomic.append(found)
        elif rv32.opcode(word) in rv32.FLOAT:
            self.floating.append(found)
        else:
            (self.compressed if isa.is_compressed(word) else self.unknown).append(found)
            return False
        return True

    def returns(self):
        """Those of the instructions for control registers and the like that no instruction set of the program has."""
        return [instruction for instruction in self.control if not isa.is_control(instruction.word)]

    def least_set(self):
        """The least of the program's instruction sets that has all that was found, but for what is cured, and for returns from traps and
        the like, which no run here reaches by a trap; None if none has."""
        if self.floating or self.compressed or self.unknown or not all(isa.is_atomic(instruction.word) for instruction in self.atomic):
            return None
        return programs.ATOMIC if self.atomic else self.least


class CodeOfHalves(Code):
    """The same of a file that has instructions of 16 bits too. `compressed` has those that stand for none of RV32IM."""

    unit, least = 2, programs.SHORT

    def before(self, address):
        """Instructions have no one length: they are counted from the begin of the function, if there is one."""
        symbol, found = self.elf.function_places.before(address), []
        at = symbol.value if symbol else address
        while at < address and (instruction := self.instruction(at)):
            found.append(instruction)
            at = instruction.next
        return found[:-NEAR:-1] if at == address else []

    def line(self, address):
        stretch, elsewhere, before = self.stretch_at(address), [], 0
        if stretch is None:
            return elsewhere
        while address + 2 <= stretch.end and not stretch.seen[(address - stretch.start) // 2]:
            found = read(self.elf.data, stretch.place + address - stretch.start, stretch.end - address, 2)
            if found is None:
                return elsewhere
            length, word = found
            stretch.seen[(address - stretch.start) // 2] = 1
            stretch.seen[(address - stretch.start + length) // 2 - 1] = 1
            if not isa.is_of_rv32im(word) and not self.is_instruction(address, word):
                return elsewhere
            if isa.may_jump(word):
                elsewhere += targets(address, before, word)
            address, before = address + length, word
            if isa.ends(word) or address in self.ends:
                return elsewhere
        return elsewhere


def unseen(stretch, start, end, unit):
    """The words of a stretch from start to end, or the units, that haven't been looked at when it is their turn."""
    index, last = max(start + unit - 1 - stretch.start, 0) // unit, (end - stretch.start) // unit
    while 0 <= (index := stretch.seen.find(0, index, last)):
        yield stretch.start + unit * index
        index += 1


def targets(address, before, word):
    """Where an instruction goes beside the next word, as far as it and the one before it tell."""
    code = rv32.opcode(word)
    if code in (rv32.JAL, rv32.BRANCH):
        return [address + rv32.branch_offset(word) & 0xFFFFFFFF]
    if code == rv32.JALR and rv32.opcode(before) in (rv32.AUIPC, rv32.LUI) and rv32.rd(before) == rv32.rs1(word):
        base = rv32.upper(before) + (address - 4 if rv32.opcode(before) == rv32.AUIPC else 0)
        return [base + rv32.immediate(word) & 0xFFFFFFFE]
    return []


def stack_words(code, entry):
    """The instructions of the start file that give the stack pointer another place, up to the first call: a run has a stack,
    so each can be left out. What moves the pointer from where it is, `addi sp,sp,-16` or `andi sp,sp,-16`, stays."""
    found, address, walked = [], entry, set()
    before = 0
    while address not in walked and len(walked) < FURTHEST:
        walked.add(address)
        instruction = code.instruction(address)
        if instruction is None or rv32.opcode(instruction.word) == rv32.JALR:
            break
        if rv32.opcode(instruction.word) == rv32.JAL and rv32.rd(instruction.word) != rv32.ZERO:
            break
        if places_stack(instruction.word, before, bool(found)):
            found.append(instruction)
        before = instruction.word
        address += rv32.branch_offset(instruction.word) if rv32.opcode(instruction.word) == rv32.JAL else instruction.length
    return found


def places_stack(word, before, has_placed):
    """Whether a word gives the stack pointer a place, after the word before it and after others that have."""
    code = rv32.opcode(word)
    if isa.written(word) != rv32.SP or not isa.is_of_rv32im(word):
        return False
    if code == rv32.IMMEDIATE and rv32.rs1(word) == rv32.SP:
        return rv32.rd(before) == rv32.SP and rv32.opcode(before) in (rv32.AUIPC, rv32.LUI)
    of_itself = code == rv32.REGISTERS and rv32.SP in (rv32.rs1(word), word >> 20 & 31)
    return has_placed or not of_itself


def replaced(code, found):
    """What takes the place of an instruction for control registers and the like: mret jumps by the register that was
    written for it, where that can be told; the others do nothing."""
    source = return_register(code, found.address) if isa.control(found.word) == "mret" else None
    if source is None:
        return Replaced(*found, *isa.harmless(found.word))
    return Replaced(*found, isa.jump_register(source), f"jr {rv32.NAMES[source]}")


def return_register(code, address):
    """The register whose value mret jumps to and which still has it, if no jump or call stands before; else None."""
    changed = set()
    for instruction in code.before(address):
        if instruction is None or isa.may_jump(instruction.word) or instruction.word in (rv32.ECALL, rv32.EBREAK):
            return None
        if isa.sets_return(instruction.word):
            return rv32.rs1(instruction.word) if rv32.rs1(instruction.word) not in changed else None
        changed.add(isa.written(instruction.word))
    return None
