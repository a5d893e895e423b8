"""Random programs, for compare-with-twin, test-sweep-table, test-look, test-tries and test-gdb."""
import random
from typing import NamedTuple

from replaycheck.guest.rv32 import (CONTROL_IMMEDIATES, CONTROL_NUMBERS, CONTROLS, EBREAK, ECALL, FENCE, FENCE_I, FIRST_CONSTANT,
                                    LOAD_RESERVED, LOADS, STORE_CONDITIONAL, STORES, UPDATES, WFI, addi, atomic, branch, control, jump,
                                    load, load_number, of_immediate, of_registers, store)
from guest_files import ENTRY
from replaycheck.guest.regions import HEAP_STEP, LEAST_STACK, STACK_STEP, USUAL_REGIONS, Regions
from replaycheck.programs import ATOMIC, USUAL

MEMORY, DATA = 0x10000, 0x8000
SP, KEPT, A0, A7, SCRATCH = 2, 8, 10, 17, 31  # x8 is where the data lies
READ, MALLOC, FREE = 63, 2001, 2002
# Control registers that programs use, by their numbers.
USED_CONTROLS = [CONTROL_NUMBERS[name] for name in (
    "mstatus", "misa", "mie", "mtvec", "mscratch", "mepc", "mcause", "mtval", "mip", "mcycle", "minstret", "mcycleh", "minstreth", "cycle",
    "time", "instret", "cycleh", "timeh", "instreth", "mhartid")]
# Control registers that programs use often, so that what one instruction writes another one reads.
KEPT_CONTROLS = [CONTROL_NUMBERS[name] for name in ("mscratch", "mscratch", "mepc", "mtvec")]


def reading(count):
    """Words that read so many bytes of the input to where the data lies."""
    return [*load_number(11, ENTRY + DATA), addi(10, 0, 0), addi(12, 0, count), addi(A7, 0, READ), ECALL]


def waiting(turns):
    """Words of a loop: two steps a turn, which touch nothing that was read."""
    return [addi(SCRATCH, 0, turns), addi(SCRATCH, SCRATCH, -1), branch(1, SCRATCH, 0, -4)]


class Place(NamedTuple):
    """Where a program is: its first address, how much memory it has from there on, and its regions of heap and stack."""

    base: int
    memory: int
    regions: Regions


USUAL_PLACE = Place(ENTRY, MEMORY, USUAL_REGIONS)
# Where the heap begins that isn't at its usual place: apart from both places of code, and from the usual stack.
HEAPS = [HEAP_STEP * it for it in (1, 2, 8, 9, 13)]


def place_of(seed):
    """The place of the random program of a seed, which each third has to itself: its code is where the heap is usually, or its stack is
    inside of its segment, or both."""
    if seed % 3:
        return USUAL_PLACE
    chosen = random.Random(f"place {seed}")
    base = chosen.choice((ENTRY, USUAL_REGIONS.heap))
    heap = chosen.choice(HEAPS if base != ENTRY else [USUAL_REGIONS.heap, *HEAPS])
    if base != ENTRY and chosen.random() < 0.4:
        return Place(base, MEMORY, Regions(heap, USUAL_REGIONS.stack))
    begin = base + MEMORY + STACK_STEP * chosen.randrange(3)
    end = begin + LEAST_STACK + STACK_STEP * chosen.randrange(8)
    return Place(base, end + chosen.choice((0, 1, STACK_STEP)) - base, Regions(heap, (begin, end)))


class Program:
    """The words of the random program of a seed, for a place."""

    def __init__(self, seed, place=USUAL_PLACE):
        self.random, self.where = random.Random(seed), place
        self.words = load_number(KEPT, place.base + DATA)
        for register in range(1, SCRATCH):
            if register not in (SP, KEPT) and self.random.random() < 0.7:
                self.words += load_number(register, self.number())
        self.words.append(addi(SP, SP, -64))
        for _ in range(self.random.randrange(40, 160)):
            self.random.choices(*zip(*self.kinds()))[0]()
        for register in range(1, SCRATCH):
            self.show(register)
        self.words.append(EBREAK)

    def kinds(self):
        return [(self.arithmetic, 30), (self.immediate, 20), (self.upper, 4), (self.loads, 22), (self.stores, 16), (self.branches, 12),
                (self.jumps, 4), (self.loop, 4), (self.frame, 4), (self.call, 1), (self.anything, 0.3),
                *([] if self.where == USUAL_PLACE else [(self.block, 3)])]

    def number(self):
        base, end = self.where.base, self.where.regions.stack[1]
        edges = (0, 1, 2**31, 2**31 - 1, 2**32 - 1, 31, 32, base, base + DATA, end - 64)
        return self.random.choice((self.random.choice(edges), self.random.getrandbits(32), self.random.getrandbits(8)))

    def source(self):
        return self.random.randrange(32)

    def target(self):
        """A register that is free to be written."""
        return self.random.choice([register for register in range(SCRATCH) if register not in (SP, KEPT)])

    def small(self):
        return self.random.choice((self.random.randrange(-2048, 2048), self.random.randrange(-8, 32)))

    def place(self):
        """A base register and an offset: mostly of the data or the stack."""
        base = self.random.choice((KEPT, KEPT, KEPT, SP, SP, SP, SP, self.source()))
        return base, self.random.randrange(-8, 72)

    def arithmetic(self):
        funct7 = self.random.choice((0, 1))
        funct3 = self.random.randrange(8)
        if funct7 == 0 and funct3 in (0, 5):
            funct7 = self.random.choice((0, 0x20))
        self.words.append(of_registers(funct7, funct3, self.target(), self.source(), self.source()))

    def immediate(self):
        funct3, number = self.random.randrange(8), self.small()
        if funct3 in (1, 5):
            number = self.random.randrange(32) | (self.random.choice((0, 0x400)) if funct3 == 5 else 0)
        self.words.append(of_immediate(funct3, self.target(), self.source(), number))

    def upper(self):
        self.words.append(self.random.getrandbits(20) << 12 | self.target() << 7 | self.random.choice((0x37, 0x17)))

    def loads(self):
        self.words.append(load(self.random.choice(list(LOADS.values())), self.target(), *self.place()))

    def stores(self):
        self.words.append(store(self.random.choice(list(STORES.values())), self.source(), *self.place()))

    def branches(self):
        """Past up to five instructions."""
        funct3 = self.random.choice((0, 1, 4, 5, 6, 7))
        self.words.append(branch(funct3, self.source(), self.source(), 4 * self.random.randrange(1, 7)))
        self.plain(6)

    def jumps(self):
        """JAL, or AUIPC and JALR, whose lowest bit doesn't count, past up to three instructions."""
        over = self.random.randrange(1, 5)
        link, base = self.random.choice((0, 1, 5, self.target())), self.target()
        if self.random.random() < 0.5 or base == 0:
            self.words.append(jump(link, 4 * over))
        else:
            self.words += [base << 7 | 0x17, (4 + 4 * over + self.random.randrange(2)) << 20 | base << 15 | link << 7 | 0x67]
        self.plain(4)

    def plain(self, count):
        """Instructions that go on to the next."""
        for _ in range(count):
            self.random.choice((self.arithmetic, self.immediate, self.loads, self.stores))()

    def loop(self):
        """Up to nine turns, counted in a register that nothing in it writes."""
        count = self.random.randrange(2, 8)
        self.words.append(addi(SCRATCH, 0, self.random.randrange(1, 10)))
        self.plain(count)
        self.words += [addi(SCRATCH, SCRATCH, -1), branch(1, SCRATCH, 0, -4 * (count + 1))]

    def frame(self):
        """The stack pointer moves, mostly by few words."""
        self.words.append(addi(SP, SP, self.random.choice((-64, -32, -16, -4, -2, 4, 16, 32, 48))))

    def call(self):
        """A call of the environment that there is not, by a number of which bits may be undefined; seldom the end."""
        number = self.random.choice([[addi(A7, 0, 59)], [load(2, A7, SP, 0), of_immediate(7, A7, A7, 7)]])
        self.words += [*([addi(A7, 0, 93)] if self.random.random() < 0.1 else number), ECALL, FENCE]

    def block(self):
        """A block of the heap, accesses in it and beside it, and perhaps its end."""
        self.words += [addi(A0, 0, self.random.randrange(20)), addi(A7, 0, MALLOC), ECALL]
        for _ in range(self.random.randrange(4)):
            at = A0, self.random.randrange(-4, 24)
            self.words.append(self.random.choice((load(2, SCRATCH, *at), store(0, self.source(), *at))))
        if self.random.random() < 0.3:
            self.words += [addi(A7, 0, FREE), ECALL]

    def anything(self):
        """An instruction of which a bit is turned: perhaps none, which ends the program."""
        before = len(self.words)
        self.random.choice((self.arithmetic, self.immediate, self.loads, self.stores, self.branches, self.jumps))()
        self.words[self.random.randrange(before, min(before + 2, len(self.words)))] ^= 1 << self.random.randrange(32)

    def show(self, register):
        """Reads at each half of a register, which is no address of the program's, and branches on each bit."""
        self.words += [of_immediate(5, SCRATCH, register, 16), load(2, 0, SCRATCH, 0), of_immediate(1, SCRATCH, register, 16),
                       of_immediate(5, SCRATCH, SCRATCH, 16), load(2, 0, SCRATCH, 0)]
        for bit in range(32):
            self.words += [of_immediate(5, SCRATCH, register, bit), of_immediate(7, SCRATCH, SCRATCH, 1), branch(0, SCRATCH, 0, 4)]


class FullProgram(Program):
    """The same with atomic instructions, control registers, FENCE.I and WFI."""

    def kinds(self):
        return [*super().kinds(), (self.update, 16), (self.reserved, 8), (self.controls, 16), (self.waits, 1)]

    def controls(self):
        """Up to four instructions of control registers. Seldom one writes what is only read, which ends the program."""
        for _ in range(self.random.randrange(1, 5)):
            number = self.random.choice(KEPT_CONTROLS if self.random.random() < 0.8 else USED_CONTROLS)
            funct3 = self.random.choice([*CONTROLS.values(), *CONTROL_IMMEDIATES.values()])
            operand = self.random.choice((0, self.source(), self.source()))
            if number >= FIRST_CONSTANT and self.random.random() < 0.99:
                funct3, operand = funct3 | 2, 0
            self.words.append(control(funct3, self.target(), number, operand))

    def waits(self):
        self.words.append(self.random.choice((FENCE_I, WFI)))

    def point(self):
        """Makes a register, which others don't write, an address: seldom one that is no multiple of 4."""
        base, offset = self.place()
        self.words.append(addi(SCRATCH, base, offset))
        if self.random.random() < 0.98:
            self.words.append(of_immediate(7, SCRATCH, SCRATCH, -4))

    def atomic(self, funct5, source):
        self.words.append(atomic(funct5, self.target(), SCRATCH, source, self.random.randrange(4)))

    def update(self):
        self.point()
        for _ in range(self.random.randrange(1, 4)):
            self.atomic(self.random.choice([*UPDATES.values()]), self.source())

    def reserved(self):
        """Up to two loads that reserve, what stores perhaps, and up to two stores on that condition, at the same address or the next."""
        self.point()
        for _ in range(self.random.randrange(3)):
            self.atomic(LOAD_RESERVED, 0)
        self.plain(self.random.randrange(3))
        self.words.append(addi(SCRATCH, SCRATCH, self.random.choice((0, 0, 0, 4))))
        for _ in range(self.random.randrange(1, 3)):
            self.atomic(STORE_CONDITIONAL, self.source())


# The programs for an instruction set.
PROGRAMS = {USUAL: Program, ATOMIC: FullProgram}


def taken_isa(words):
    """The instruction set of `--isa=NAME` among words, or None, and the other words."""
    isa = next((name for name in PROGRAMS if f"--isa={name}" in words), None)
    return isa, [it for it in words if it != f"--isa={isa}"]
