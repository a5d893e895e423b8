"""What the program's file tells of a run: which memory is loaded, and what an instruction does to bytes."""
import re

from replaycheck.endings import Fault
from replaycheck.guest.elf import FUNCTION, Elf, refusals
from replaycheck.guest.halves import expanded, is_half
from replaycheck.guest.instructions import is_control
from replaycheck.guest.regions import USUAL_REGIONS
from replaycheck.guest.rv32 import ATOMIC, AUIPC, EBREAK, ECALL, IMMEDIATE, LOAD, LUI, REGISTERS, SP, STORE, opcode, rd
from replaycheck.programs import USUAL

LONGEST_FILE = 1 << 26
MOST_MARKED = 1 << 20  # so many bytes one mark may have
HEAP_FUNCTIONS = ("malloc", "free", "calloc", "realloc")
KINDS = {STORE: "store", LOAD: "load", ATOMIC: "atomic"}
PATCH = re.compile(r"patch(16)? (\S+) (\S+)")
MARK = re.compile(r"mark (\S+) (\S+) (\S+) undefined")


class Image:
    """A program's file, with the words that lines of the session patch, for an instruction set and regions of heap and stack."""

    def __init__(self, path, lines, isa=USUAL, regions=USUAL_REGIONS):
        self.has_halves = isa != USUAL
        with open(path, "rb") as file:
            data = file.read(LONGEST_FILE + 1)
        if any(not refusal.readable for refusal in refusals(data, regions)):
            raise Fault(f"{path}: it has changed since the program read it")
        self.elf = Elf(data, regions)
        self.heap = {symbol.value: self.elf.name(symbol) for symbol in reversed(self.elf.symbols)
                     if symbol.info & 15 == FUNCTION and self.elf.name(symbol) in HEAP_FUNCTIONS}
        self.patched = halves_of(filter(None, map(PATCH.fullmatch, lines)))
        found = filter(None, map(MARK.fullmatch, lines))
        self.marked = [(int(mark[1], 0), int(mark[2], 0), int(mark[2], 0) + int(mark[3], 0), mark[0]) for mark in found]

    def word(self, address):
        return self.half(address) | self.half(address + 2) << 16

    def instruction(self, address):
        """The word of the instruction at an address: of one of 16 bits, that of what it stands for, and 0 if it stands for nothing."""
        if not self.has_halves:
            return self.word(address)
        half = self.half(address)
        return expanded(half) or 0 if is_half(half) else self.word(address)

    def half(self, address):
        """Two bytes at a multiple of 2."""
        if address in self.patched:
            return self.patched[address]
        place = self.elf.place(address, 2)
        return 0 if place is None else int.from_bytes(self.elf.data[place:place + 2], "little")

    def kind(self, address):
        """What an instruction is: the name of a function of the heap, `frame` where it moves the stack pointer,
        `store`, `load`, `atomic`, `call`, or `other`, as also one of a control register is."""
        word = self.instruction(address)
        if address in self.heap:
            return self.heap[address]
        if word in (ECALL, EBREAK):
            return "call"
        writes = opcode(word) in (IMMEDIATE, REGISTERS, LUI, AUIPC, LOAD, ATOMIC) or is_control(word)
        return "frame" if writes and rd(word) == SP else KINDS.get(opcode(word), "other")

    def creates(self, address):
        """Whether an instruction can make bytes undefined."""
        kind, word = self.kind(address), self.instruction(address)
        is_raised = word & 0xFFFFF == SP << 15 | SP << 7 | IMMEDIATE and not word >> 31  # addi sp,sp, and no minus
        return kind in ("call", "malloc", "realloc") or kind == "frame" and not is_raised

    def name(self, address):
        return self.elf.function_at(address) or "???"

    def memory(self, reach):
        """The ranges of memory that can be undefined: so much of the heap and the stack, all that is loaded, and what
        lines have marked."""
        heap, (begin, end) = self.elf.regions.heap, self.elf.regions.stack
        ranges = [*self.elf.loaded, *((low, high) for _, low, high, _ in self.marked)]
        ranges += [(heap, heap + reach), (end - min(reach, end - begin), end)]
        return [(low, min(low + MOST_MARKED, end)) for begin, end in joined(ranges)
                for low in range(begin, end, MOST_MARKED)]


def halves_of(patches):
    """What patches write, two bytes at each address: a later one over those before it."""
    found = {}
    for patch in patches:
        at, value = int(patch[2], 0), int(patch[3], 0)
        for place in range(1 if patch[1] else 2):
            found[at + 2 * place] = value >> 16 * place & 0xFFFF
    return found


def joined(ranges):
    """Ranges in order, where some meet as one."""
    found = []
    for low, high in sorted(ranges):
        if found and low <= found[-1][1]:
            found[-1] = (found[-1][0], max(high, found[-1][1]))
        else:
            found.append((low, high))
    return found


def in_words(ranges):
    return ", ".join(f"{high - low} byte{'s' if high - low > 1 else ''} at 0x{low:08x}" for low, high in ranges)
