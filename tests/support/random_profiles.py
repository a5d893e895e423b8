"""Random programs of RV32IMAC and RV32IMC that run alike wherever they run, for test-profiles.

A program keeps to its own memory: an address is x8 or x2 and a small offset, or was made from x8 just before. Its instructions have 16 and
32 bits, and so lie at each multiple of 2. It jumps, loops, updates memory by atomic instructions, and changes its own code. At its end it
stores its registers behind its data, writes both to standard output, and exits by 0. For test-changes it also has control registers.

A program of control registers, of a whole machine, folds what it reads from them into a status."""
import random
import struct

from halves import Insn, by_text, disassembled
from replaycheck.guest.rv32 import (CONTROL_IMMEDIATES, CONTROLS, ECALL, FENCE_I, FIRST_CONSTANT, LOAD_RESERVED, LOADS,
                                    STORE_CONDITIONAL, STORES, UPDATES, WFI, addi, atomic, branch, control, jump, load, load_number,
                                    of_immediate, of_registers, store)
from guest_files import ENTRY
from random_programs import USED_CONTROLS

CODE = 0x8000
DATA = ENTRY + CODE
# How many bytes are written at the end: data, stack, and the registers from there on.
SAVED, SHOWN = 1536, 1664
# Where the stack pointer is, behind x8.
STACK = 512
SP, KEPT, SCRATCH = 2, 8, 31
COMPUTING = "c.addi c.li c.lui c.srli c.srai c.andi c.slli c.sub c.xor c.or c.and c.mv c.add c.addi4spn".split()
FIXED = (SP, KEPT, SCRATCH)
# Control registers that take each value: mscratch, mcause, mtval, sscratch, scause and stval.
PLAIN_CONTROLS = (0x340, 0x342, 0x343, 0x140, 0x142, 0x143)
# Where the machine that qemu calls virt has its memory, and the device that ends it.
BOARD, FINISHER = 0x80000000, 0x00100000
# Which register has the status in the end.
STATUS = 11


def auipc(to: int) -> int:
    return to << 7 | 0x17


def bytes_of(*words: int) -> bytes:
    return b"".join(struct.pack("<I", word & 0xFFFFFFFF) for word in words)


def half_bytes(half: int) -> bytes:
    return struct.pack("<H", half)


class Halves:
    """16-bit instructions by what they do."""

    def __init__(self) -> None:
        self.computing: dict[str, list[int]] = {name: [] for name in COMPUTING}
        self.loads: list[int] = []
        self.stores: list[int] = []
        self.moves: list[int] = []
        self.jumps: dict[Insn, int] = {}
        for half, text in disassembled().items():
            insn = by_text(*text)
            if insn:
                self.sort(half, text[1], insn)

    def sort(self, half: int, name: str, insn: Insn) -> None:
        if name in COMPUTING and insn.rd not in FIXED:
            self.computing[name].append(half)
        elif name == "c.addi16sp":
            self.moves.append(half)
        elif insn.op == "Lw" and insn.rs1 in (SP, KEPT) and insn.rd not in FIXED:
            self.loads.append(half)
        elif insn.op == "Sw" and insn.rs1 in (SP, KEPT):
            self.stores.append(half)
        elif insn.op in ("Jal", "Jalr", "Beq", "Bne"):
            self.jumps[insn] = half


class Program:
    """The file's content of the random program of a seed."""

    def __init__(self, seed: int, halves: Halves, has_atomics: bool, has_controls: bool = False) -> None:
        self.random, self.halves, self.has_atomics, self.has_controls = random.Random(seed), halves, has_atomics, has_controls
        pieces = [bytes_of(*load_number(KEPT, DATA), addi(SP, KEPT, STACK))]
        for register in range(1, 32):
            if register not in (SP, KEPT):
                pieces.append(bytes_of(*load_number(register, self.number())))
        for _ in range(self.random.randrange(60, 260)):
            pieces.append(self.random.choices(*zip(*self.kinds()))[0]())
        pieces += [bytes_of(store(2, register, KEPT, SAVED + 4 * register)) for register in range(32)]
        pieces.append(bytes_of(addi(10, 0, 1), addi(11, KEPT, 0), addi(12, 0, SHOWN), addi(17, 0, 64), ECALL))
        pieces.append(bytes_of(addi(10, 0, 0), addi(17, 0, 93), ECALL))
        self.code = b"".join(pieces)
        data = self.random.randbytes(SAVED)
        self.content = self.code.ljust(CODE, b"\0") + data

    def kinds(self) -> list:
        plain = [(self.plain, 60), (self.branches, 12), (self.jumps, 8), (self.loop, 4), (self.frame, 5), (self.changed, 6)]
        return plain + ([(self.reserved, 4)] if self.has_atomics else []) + ([(self.controls, 12)] if self.has_controls else [])

    def number(self) -> int:
        edges = (0, 1, 2**31, 2**31 - 1, 2**32 - 1, 31, 32, DATA)
        return self.random.choice((self.random.choice(edges), self.random.getrandbits(32), self.random.getrandbits(8)))

    def source(self) -> int:
        return self.random.randrange(32)

    def target(self) -> int:
        """A register that is free to be written, and isn't x0."""
        return self.random.choice([register for register in range(1, 32) if register not in FIXED])

    # ---- instructions that go on to the next

    def plain(self) -> bytes:
        return self.random.choices(*zip(*[(self.half, 40), (self.arithmetic, 12), (self.immediate, 12), (self.upper, 3), (self.loads, 10),
                                          (self.stores, 10), (self.update, 12 if self.has_atomics else 0)]))[0]()

    def plains(self, most: int) -> list[bytes]:
        return [self.plain() for _ in range(self.random.randrange(1, most + 1))]

    def half(self) -> bytes:
        """A 16-bit one: it computes, loads or stores."""
        kind = self.random.random()
        halves = self.halves.loads if kind < 0.2 else self.halves.stores if kind < 0.4 else self.computing()
        return half_bytes(self.random.choice(halves))

    def computing(self) -> list[int]:
        return self.halves.computing[self.random.choice(COMPUTING)]

    def arithmetic(self) -> bytes:
        funct3, funct7 = self.random.randrange(8), self.random.choice((0, 1))
        if funct7 == 0 and funct3 in (0, 5):
            funct7 = self.random.choice((0, 0x20))
        return bytes_of(of_registers(funct7, funct3, self.target(), self.source(), self.source()))

    def immediate_word(self) -> int:
        funct3, number = self.random.randrange(8), self.random.randrange(-2048, 2048)
        if funct3 in (1, 5):
            number = self.random.randrange(32) | (self.random.choice((0, 0x400)) if funct3 == 5 else 0)
        return of_immediate(funct3, self.target(), self.source(), number)

    def immediate(self) -> bytes:
        return bytes_of(self.immediate_word())

    def upper(self) -> bytes:
        return bytes_of(self.random.getrandbits(20) << 12 | self.target() << 7 | self.random.choice((0x37, 0x17)))

    def place(self) -> tuple[int, int]:
        return self.random.choice((KEPT, SP)), self.random.randrange(0, 250)

    def loads(self) -> bytes:
        return bytes_of(load(self.random.choice(list(LOADS.values())), self.target(), *self.place()))

    def stores(self) -> bytes:
        return bytes_of(store(self.random.choice(list(STORES.values())), self.source(), *self.place()))

    def pointed(self, pointer: int) -> int:
        """Makes a register the address of a word of the data."""
        return addi(pointer, KEPT, 4 * self.random.randrange(16))

    def update(self) -> bytes:
        pointer = self.target()
        to = self.random.choice((0, self.target(), pointer))
        funct5 = self.random.choice([*UPDATES.values()])
        return bytes_of(self.pointed(pointer), atomic(funct5, to, pointer, self.source(), self.random.randrange(4)))

    # ---- groups

    def reserved(self) -> bytes:
        """A load that reserves, or none; what computes; and a store on that condition, or two: at the same address, or at another one."""
        pointer, other = self.random.sample([register for register in range(1, 32) if register not in FIXED], 2)
        words = [self.pointed(pointer), addi(other, pointer, 4 * self.random.randrange(3))]
        order = self.random.randrange(4)
        for _ in range(self.random.randrange(3)):
            words.append(atomic(LOAD_RESERVED, 0, self.random.choice((pointer, other)), 0, order))
        between = b"".join(half_bytes(half) for half in self.unlike(pointer, other, self.random.randrange(3)))
        stores = [atomic(STORE_CONDITIONAL, to, base, self.source(), order)
                  for to, base in ((0, pointer), (self.target(), other))[self.random.randrange(2):]]
        return bytes_of(*words) + between + bytes_of(*stores)

    def unlike(self, one: int, other: int, count: int) -> list[int]:
        """16-bit instructions that compute, and write neither register."""
        found: list[int] = []
        while len(found) < count:
            half = self.random.choice(self.halves.computing["c.li"])
            found += [half] if half >> 7 & 31 not in (one, other) else []
        return found

    def controls(self) -> bytes:
        """Up to four instructions of few control registers and of counters, of which none stops the program; perhaps a wait."""
        words = [self.random.choice((WFI, FENCE_I))] if self.random.random() < 0.1 else []
        for _ in range(self.random.randrange(1, 5)):
            number = self.random.choice((PLAIN_CONTROLS[0], PLAIN_CONTROLS[0], *PLAIN_CONTROLS, *USED_CONTROLS))
            funct3 = self.random.choice([*CONTROLS.values(), *CONTROL_IMMEDIATES.values()])
            operand = self.random.choice((0, self.source(), self.source()))
            if number >= FIRST_CONSTANT:
                funct3, operand = funct3 | 2, 0
            words.append(control(funct3, self.random.choice((0, self.target(), self.target())), number, operand))
        return bytes_of(*words)

    def past(self, chunks: list[bytes], length: int) -> int:
        """The distance from an instruction with this length to the start of one of the chunks after it, or their end."""
        return length + sum(map(len, chunks[:self.random.randrange(len(chunks) + 1)]))

    def branches(self) -> bytes:
        chunks, op, register = self.plains(6), self.random.choice(("Beq", "Bne")), self.random.randrange(8, 16)
        half = self.halves.jumps.get(Insn(op, 0, register, 0, self.past(chunks, 2)))
        if half and self.random.random() < 0.5:
            return half_bytes(half) + b"".join(chunks)
        funct3 = self.random.choice((0, 1, 4, 5, 6, 7))
        return bytes_of(branch(funct3, self.source(), self.source(), self.past(chunks, 4))) + b"".join(chunks)

    def jumps(self) -> bytes:
        chunks = self.plains(4)
        link = self.random.choice((0, 1, 5, self.target()))
        if link < 2 and self.random.random() < 0.5:
            first = half_bytes(self.halves.jumps[Insn("Jal", link, 0, 0, self.past(chunks, 2))])
        elif self.random.random() < 0.4:
            first = bytes_of(jump(link, self.past(chunks, 4)))
        else:
            first = self.indirect(link, chunks)
        return first + b"".join(chunks)

    def indirect(self, link: int, chunks: list[bytes]) -> bytes:
        """A jump by a register, whose lowest bit doesn't count."""
        base = self.target()
        if link < 2 and self.random.random() < 0.6:
            half = self.halves.jumps[Insn("Jalr", link, base, 0, 0)]
            return bytes_of(auipc(base), addi(base, base, self.past(chunks, 10) + self.random.randrange(2))) + half_bytes(half)
        to = self.past(chunks, 8) + self.random.randrange(2)
        return bytes_of(auipc(base), load(0, link, base, to) | 0x64)

    def loop(self) -> bytes:
        """Up to nine turns, counted in a register that nothing in it writes."""
        body = b"".join(self.plains(8)) + bytes_of(addi(SCRATCH, SCRATCH, -1))
        return bytes_of(addi(SCRATCH, 0, self.random.randrange(1, 10))) + body + bytes_of(branch(1, SCRATCH, 0, -len(body)))

    def frame(self) -> bytes:
        """The stack pointer moves, is used, and is where it was."""
        return half_bytes(self.random.choice(self.halves.moves)) + b"".join(self.plains(3)) + bytes_of(addi(SP, KEPT, STACK))

    def changed(self) -> bytes:
        """Code that is changed just before it runs: a half, the second half of a long instruction, or two halves at once."""
        base, value = self.random.sample([register for register in range(1, 32) if register not in FIXED], 2)
        kind, pad = self.random.randrange(3), half_bytes(1) * self.random.randrange(2)
        if kind == 0:
            old, new, at, width = half_bytes(self.random.choice(self.computing())), self.random.choice(self.computing()), 0, 1
        elif kind == 1:
            word = self.immediate_word() & ~0x7000
            old, new, at, width = bytes_of(word), self.random.getrandbits(12) << 4 | word >> 16 & 0xF, 2, 1
        else:
            old, new, at, width = self.two(), int.from_bytes(self.two(), "little"), 0, 2
        before = [auipc(base), *load_number(value, new)]
        start = 4 * (len(before) + 2) + len(pad)
        return bytes_of(*before, store(width, value, base, start + at), FENCE_I) + pad + old

    def two(self) -> bytes:
        """Four bytes: two short instructions or a long one."""
        if self.random.random() < 0.5:
            return self.immediate()
        return b"".join(half_bytes(self.random.choice(self.computing())) for _ in range(2))


def of_controls(seed: int) -> bytes:
    """The code of a program of control registers, which folds what it reads into x11, and ends a machine by seven bits of that."""
    chosen = random.Random(seed)
    words = [word for register in range(5, 32) for word in load_number(register, chosen.getrandbits(32))]
    words += load_number(12, 0x01000193)
    numbers = [chosen.choice(PLAIN_CONTROLS) for _ in range(60)]
    for number in (*numbers, *PLAIN_CONTROLS):
        funct3 = chosen.choice((1, 2, 3, 5, 6, 7))
        operand = chosen.choice((0, chosen.randrange(13, 32)))
        words += [control(funct3, 10, number, operand), of_registers(0, 4, STATUS, STATUS, 10), of_registers(1, 0, STATUS, STATUS, 12)]
    words += [of_immediate(5, 10, STATUS, 16), of_registers(0, 4, STATUS, STATUS, 10), of_immediate(5, 10, STATUS, 8),
              of_registers(0, 4, STATUS, STATUS, 10), of_immediate(7, STATUS, STATUS, 127), FENCE_I]
    words += [of_immediate(1, 10, STATUS, 16), *load_number(13, 0x3333), of_registers(0, 6, 10, 10, 13), *load_number(14, FINISHER),
              store(2, 10, 14, 0), jump(0, 0)]
    return bytes_of(*words)
