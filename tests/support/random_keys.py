"""Random programs that read a key, for test-any: most of them keep it out of branches and addresses, and some don't."""
import random
from typing import NamedTuple

from guest_files import ENTRY
from random_programs import A0, A7, DATA, FREE, KEPT, MALLOC, READ, SCRATCH, SP
from replaycheck.guest.rv32 import (CONTROL_NUMBERS, CONTROLS, EBREAK, ECALL, LOADS, STORES, UPDATES, addi, atomic, branch, control, load,
                                    load_number, of_immediate, of_registers, store)
from replaycheck.programs import ATOMIC, USUAL

WRITE, REALLOC = 64, 2004
# How many bytes the input has; how many of them are read first, to where the data lies; what is kept from them begins behind.
INPUT, READ_BYTES, PUBLIC_DATA = 20, 16, 64
# Registers that the key seldom comes to, and those that it may come to.
PUBLIC, OTHERS = range(11, 17), range(18, 31)
SAVED = 9  # where the stack pointer is kept
# How often an instruction that is to be kept from the key isn't, in programs that leak.
LEAKS = 0.1


class Asked(NamedTuple):
    """A program, its input, and the options of `certify`."""

    words: list[int]
    input: bytes
    options: list[str]


class KeyProgram:
    """The words of the random program of a seed, which reads a key."""

    def __init__(self, seed, isa=USUAL):
        self.random, self.isa = random.Random(f"key {seed}"), isa
        self.leak = self.random.choice((LEAKS, LEAKS, 0))
        self.words = load_number(KEPT, ENTRY + DATA)
        self.words.append(addi(SP, SP, -64))
        for at in range(0, 64, 4):
            self.words.append(store(STORES["sw"], 0, SP, at))
        self.words += [addi(SAVED, SP, 0), *load_number(11, ENTRY + DATA), addi(A0, 0, 0), addi(12, 0, READ_BYTES),
                       addi(A7, 0, READ), ECALL]
        for register in (*PUBLIC, *OTHERS, A0, A7):
            self.words += load_number(register, self.number())
        for _ in range(self.random.randrange(20, 120)):
            self.random.choices(*zip(*self.kinds()))[0]()
        self.words += self.random.choice(([EBREAK], [addi(A0, 0, 3), addi(A7, 0, 93), ECALL]))

    def kinds(self):
        atomics = [(self.update, 8), (self.controls, 8)] if self.isa == ATOMIC else []
        leaks = [(self.pointer, 1), (self.table, 1), (self.parameter, 1), (self.outside, 1)] if self.leak else []
        return [(self.arithmetic, 30), (self.immediate, 20), (self.loads, 24), (self.stores, 16), (self.branches, 8), (self.loop, 2),
                (self.frame, 1), (self.writes, 1), (self.hides, 0.3), (self.block, 2), (self.divisions, 2), *leaks, *atomics]

    def number(self):
        return self.random.choice((self.random.getrandbits(32), self.random.getrandbits(8), 0, 1, 2**31, 2**32 - 1))

    def leaks(self):
        return self.random.random() < self.leak

    def public(self):
        """A register that the key isn't in, in a program that doesn't leak."""
        return self.random.choice(OTHERS) if self.leaks() else self.random.choice((0, *PUBLIC))

    def fields(self):
        """A target, and where its operands come from."""
        if self.random.random() < 0.4:
            return self.random.choice(PUBLIC), self.public
        return self.random.choice(OTHERS), lambda: self.random.choice((0, KEPT, SP, *PUBLIC, *OTHERS))

    def arithmetic(self, funct7=None):
        target, source = self.fields()
        funct3 = self.random.randrange(8)
        funct7 = self.random.choice((0, 1)) if funct7 is None else funct7
        if funct7 == 0 and funct3 in (0, 5):
            funct7 = self.random.choice((0, 0x20))
        self.words.append(of_registers(funct7, funct3, target, source(), source()))

    def divisions(self):
        self.arithmetic(1)

    def immediate(self):
        target, source = self.fields()
        funct3, number = self.random.randrange(8), self.random.choice((self.random.randrange(-2048, 2048), self.random.randrange(-8, 32)))
        if funct3 in (1, 5):
            number = self.random.randrange(32) | (self.random.choice((0, 0x400)) if funct3 == 5 else 0)
        self.words.append(of_immediate(funct3, target, source(), number))

    def place(self, is_public):
        """A base register and an offset."""
        if is_public:
            return KEPT, PUBLIC_DATA + self.random.randrange(48)
        return self.random.choice((KEPT, SP)), self.random.randrange(44)

    def loads(self):
        is_public = self.random.random() < 0.4
        place = self.place(is_public and not self.leaks())
        self.words.append(load(self.random.choice([*LOADS.values()]), self.random.choice(PUBLIC if is_public else OTHERS), *place))

    def stores(self):
        is_public = self.random.random() < 0.4
        source = self.public() if is_public else self.random.choice((*PUBLIC, *OTHERS))
        self.words.append(store(self.random.choice([*STORES.values()]), source, *self.place(is_public)))

    def plain(self, count):
        for _ in range(count):
            self.random.choice((self.arithmetic, self.immediate, self.loads, self.stores))()

    def branches(self):
        """Past up to five instructions."""
        self.words.append(branch(self.random.choice((0, 1, 4, 5, 6, 7)), self.public(), self.public(), 4 * self.random.randrange(1, 7)))
        self.plain(6)

    def loop(self):
        """Up to nine turns, counted in a register that nothing in it writes."""
        count = self.random.randrange(2, 8)
        self.words.append(addi(SCRATCH, 0, self.random.randrange(1, 10)))
        self.plain(count)
        self.words += [addi(SCRATCH, SCRATCH, -1), branch(1, SCRATCH, 0, -4 * (count + 1))]

    def frame(self):
        """The stack pointer goes down, a word is stored there, and up again."""
        self.words += [addi(SP, SP, -16), store(STORES["sw"], self.random.choice(OTHERS), SP, 4), addi(SP, SP, 16)]

    def pointer(self):
        """The stack pointer depends on the key for a moment, or keeps what it was, and a branch on what is there then."""
        source = self.random.choice(OTHERS)
        self.words += [of_immediate(7, SCRATCH, source, self.random.choice((16, 48, 0))), of_registers(0, 0, SP, SP, SCRATCH),
                       addi(SP, SAVED, 0), load(LOADS["lw"], SCRATCH, SP, 0), branch(0, SCRATCH, 0, 8), addi(0, 0, 0)]

    def table(self):
        """An address that depends on the key."""
        self.words += [of_immediate(7, SCRATCH, self.random.choice(OTHERS), self.random.choice((31, 4, 0))),
                       of_registers(0, 0, SCRATCH, SCRATCH, KEPT), load(LOADS["lbu"], self.random.choice(OTHERS), SCRATCH, 0)]

    def parameter(self):
        """The size of a block depends on the key."""
        self.words += [of_immediate(7, A0, self.random.choice(OTHERS), self.random.choice((15, 0))), addi(A7, 0, MALLOC), ECALL]

    def outside(self):
        """What is left of the input is read to the end of a block, and perhaps beyond."""
        self.words += [addi(A0, 0, self.random.randrange(2, 8)), addi(A7, 0, MALLOC), ECALL, addi(11, A0, 0), addi(A0, 0, 0),
                       addi(12, 0, 4), addi(A7, 0, READ), ECALL]

    def writes(self):
        """A `write` of bytes that the key may be in."""
        self.words += [addi(A0, 0, 1), addi(11, KEPT, self.random.randrange(32)), addi(12, 0, self.random.randrange(24)),
                       addi(A7, 0, WRITE), ECALL]

    def hides(self):
        """A `write` of a byte that is uninitialised where the key has a 1: of a 0 there is no error."""
        self.words += [addi(SP, SP, -16), load(LOADS["lbu"], SCRATCH, SP, 0), addi(SP, SP, 16),
                       load(LOADS["lbu"], A0, KEPT, self.random.randrange(READ_BYTES)), of_registers(0, 7, SCRATCH, SCRATCH, A0),
                       store(STORES["sb"], SCRATCH, KEPT, 60), addi(A0, 0, 1), addi(11, KEPT, 60), addi(12, 0, 1),
                       addi(A7, 0, WRITE), ECALL]

    def block(self):
        """A block of the heap into which bytes go, perhaps moved, perhaps freed."""
        size = self.random.randrange(8, 40)
        self.words += [addi(A0, 0, size), addi(A7, 0, MALLOC), ECALL]
        for _ in range(self.random.randrange(1, 4)):
            at = A0, self.random.randrange(-1, size - 2 if self.leak else size - 3)
            self.words.append(store(self.random.choice([*STORES.values()]), self.random.choice((*PUBLIC, *OTHERS)), *at))
        if self.random.random() < 0.4:
            self.words += [addi(11, 0, self.random.randrange(1, 60)), addi(A7, 0, REALLOC), ECALL]
        if self.random.random() < 0.5:
            self.words += [addi(A7, 0, FREE), ECALL]

    def update(self):
        """An atomic instruction on a word of the data that may have the key."""
        self.words += [addi(SCRATCH, KEPT, 4 * self.random.randrange(11)),
                       atomic(self.random.choice([*UPDATES.values()]), self.random.choice(OTHERS), SCRATCH, self.random.choice(OTHERS), 0)]

    def controls(self):
        number = CONTROL_NUMBERS[self.random.choice(("mscratch", "mepc", "mtvec", "cycle", "instret"))]
        is_counter = number >= CONTROL_NUMBERS["cycle"]
        funct3 = CONTROLS["csrrs"] if is_counter else self.random.choice([*CONTROLS.values()])
        self.words.append(control(funct3, self.random.choice(OTHERS), number, 0 if is_counter else self.random.choice((*PUBLIC, *OTHERS))))


def asked(seed, isa, has_several=True, has_timing=True):
    """The program of a seed, with what is any of it: one range, or several, and perhaps the operands of instructions whose time counts."""
    program = KeyProgram(seed, isa)
    chosen = random.Random(f"any {seed}")
    options = []
    places = sorted(chosen.sample(range(INPUT + 1), 2 * (chosen.choice((1, 1, 2, 3)) if has_several else 1)))
    for first, end in zip(places[::2], places[1::2]):
        options += ["--any", f"{first}..{end - 1}" if end - first > 1 else f"{first}"]
    if chosen.random() < 0.3:
        first = ENTRY + DATA + chosen.randrange(64)
        options += ["--any-memory", f"{first:#x}..{first + chosen.randrange(1, 9):#x}"]
    if chosen.random() < 0.2 and has_timing:
        options += ["--timing", chosen.choice(("div", "mul", "div,mul"))]
    for _ in range(chosen.choice((0, 0, 0, 0, 1, 2 if has_several else 1))):
        options += ["--reveal", f"{chosen.randrange(200)},{ENTRY + DATA + chosen.randrange(120):#x},{chosen.randrange(1, 3)}"]
    given = bytes(0 if chosen.random() < 0.4 else chosen.randrange(256) for _ in range(INPUT))
    return Asked(program.words, given, options)
