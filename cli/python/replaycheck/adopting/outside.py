"""Loads and stores at addresses that the code itself has and where no memory is: registers of devices, as a rule."""
from __future__ import annotations

import bisect
from dataclasses import dataclass, replace

from replaycheck.guest import instructions as isa, rv32
from replaycheck.guest.code import joined
from replaycheck.stand_ins import ACCESSES

# What a device is called, by its first address and by how many it has.
DEVICES = [(0x100000, 0x1000, "the test device of QEMU's virt"), (0x2000000, 0x10000, "a clock, the CLINT"),
           (0xC000000, 0x4000000, "a controller of interrupts, the PLIC"), (0x10000000, 0x100, "the UART of QEMU's virt"),
           (0x10013000, 0x1000, "SiFive's UART")]
HOSTS = ("tohost", "fromhost")
PAGE = 0x1000
# Registers that a call may change: ra, t0 to t2, a0 to a7, t3 to t6.
CHANGED_BY_CALLS = {1, 5, 6, 7, *range(10, 18), *range(28, 32)}


@dataclass(frozen=True)
class Reached:
    """Addresses of one page that are reached: the first and the last one, what the device is called, and the places of the
    instructions."""

    first: int
    last: int
    name: str | None
    places: list[int]


def memory_of(elf, copied):
    """Where a run has memory; the first page, to which a null pointer leads; and what follows a segment, where an empty
    table of the linker script may begin and end."""
    regions = [(low, high) for _, low, high in elf.regions.ranges]
    return joined([(0, PAGE), *regions, *((load.vaddr, load.vaddr + load.memsz + PAGE) for load in elf.loads),
                   *((segment.paddr, segment.paddr + segment.filesz) for segment in copied)])


class Constants:
    """What registers have, as far as the words since the last jump say. Of the stack pointer nothing is known, nor of
    what auipc makes: these are the linker's own addresses, such as the ends of a table that may be empty."""

    def __init__(self):
        self.known = {rv32.ZERO: 0}

    def target(self, word):
        """The address of a load or a store, or None."""
        code = rv32.opcode(word)
        base = self.known.get(rv32.rs1(word)) if code in (rv32.LOAD, rv32.STORE) else None
        if base is None:
            return None
        return base + (rv32.immediate(word) if code == rv32.LOAD else rv32.store_offset(word)) & 0xFFFFFFFF

    def after(self, word):
        """Takes in what an instruction does."""
        code, to = rv32.opcode(word), isa.written(word)
        value = None
        if code == rv32.LUI:
            value = rv32.upper(word)
        elif code == rv32.IMMEDIATE and rv32.funct3(word) == 0 and rv32.rs1(word) in self.known:
            value = self.known[rv32.rs1(word)] + rv32.immediate(word) & 0xFFFFFFFF
        if code in (rv32.JAL, rv32.JALR):
            gone = self.known.keys() - {rv32.ZERO} if to == rv32.ZERO else self.known.keys() & CHANGED_BY_CALLS
            for register in list(gone):
                del self.known[register]
        elif to != rv32.ZERO:
            self.known.pop(to, None)
            if value is not None and to != rv32.SP:
                self.known[to] = value


def accesses(elf, code):
    """Each load and store whose address is known: its place and where it goes."""
    begins, constants = {function.value for function in elf.functions}, Constants()
    for instruction in code.seen():
        if instruction is None or instruction.address in begins:
            constants = Constants()
        if instruction is not None:
            target = constants.target(instruction.word)
            if target is not None:
                yield instruction.address, target
            constants.after(instruction.word)


def device_at(address):
    return next((name for first, size, name in DEVICES if first <= address < first + size), None)


def reached(elf, code, copied):
    """What loads and stores reach where no memory is, page by page, and the words by which a host is asked."""
    memory, pages = memory_of(elf, copied), {}
    for address, target in accesses(elf, code):
        before = memory[bisect.bisect_right(memory, [target, 1 << 32]) - 1]  # the first begins at 0
        if target >= before[1]:
            pages.setdefault(target // PAGE, []).append((target, address))
    found = []
    for page in sorted(pages):
        targets = [target for target, _ in pages[page]]
        found.append(Reached(min(targets), max(targets), device_at(min(targets)), sorted(at for _, at in pages[page])))
    names = {elf.name(symbol): symbol.value for symbol in elf.symbols if elf.name(symbol) in (*HOSTS, ACCESSES.range)}
    hosts = [] if ACCESSES.range in names else [host for host in HOSTS if host in names]  # or else answered for
    return found + [Reached(names[host], names[host], host, []) for host in hosts]


def left(found, sites):
    """What is reached by other instructions than some sites; of a word of a host nothing is left."""
    others = (replace(one, places=[at for at in one.places if at not in sites]) for one in found)
    return [one for one in others if one.places]
