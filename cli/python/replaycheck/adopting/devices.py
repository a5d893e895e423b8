"""Loads and stores of known devices. Each becomes a jump to a stub, which asks what answers for devices, and makes the load
or store itself if there is no device at its address."""
import struct

from replaycheck.guest import instructions as isa, rv32
from replaycheck.guest.elf import word_at
from replaycheck.stand_ins import ACCESSES

from . import device_handler
from .added import Added
from .outside import HOSTS

# Of each device that is answered for, its registers.
ANSWERED = [(0x10000000, 8), (0x10013000, 28), (0x100000, 4)]
FRAME = 32
SAVED = [(rv32.RA, 0), (rv32.A0, 4), (rv32.A1, 8), (rv32.A2, 12)]
# Sub-words: how far a load of each funct3 shifts its value up and down, and by which shift.
SHIFTS = {rv32.LOADS["lb"]: (24, "srai"), rv32.LOADS["lh"]: (16, "srai"), rv32.LOADS["lbu"]: (24, "srli"), rv32.LOADS["lhu"]: (16, "srli")}


def words_of_host(elf):
    """The addresses of tohost and of fromhost, or NO_SUCH."""
    found = {elf.name(symbol): symbol.value for symbol in elf.symbols if elf.name(symbol) in HOSTS}
    return [found.get(name, device_handler.NO_SUCH) for name in HOSTS]


def spans(elf):
    """Where a load or store is answered for: the address and the size of each device."""
    tohost, _ = words_of_host(elf)
    return ANSWERED + ([(tohost, 8)] if tohost != device_handler.NO_SUCH else [])


def can_lead(elf, site, kept, unit):
    """Whether at an address is a load or store that a stub can make: of 32 bits, as a jump has them, in no function that is kept, and
    without the stack pointer."""
    place = elf.place(site)
    word = word_at(elf.data, place) if place is not None else 0
    uses = rv32.rd(word) if rv32.opcode(word) == rv32.LOAD else word >> 20 & 31
    is_one = rv32.opcode(word) in (rv32.LOAD, rv32.STORE) and isa.is_of_rv32im(word) and rv32.SP not in (rv32.rs1(word), uses)
    return is_one and site % unit == 0 and elf.function_at(site) not in kept


def answerable(found):
    """The places of what reaches a device that is answered for, by addresses that are in the code."""
    return [at for device in found for at in device.places
            if any(start <= device.first and device.last < start + size for start, size in ANSWERED)]


def asking(word, is_lower, handler):
    """The words of a stub that ask the handler. What the registers had is on the stack."""
    is_store = rv32.opcode(word) == rv32.STORE
    offset = rv32.store_offset(word) if is_store else rv32.immediate(word)
    words = [rv32.addi(rv32.SP, rv32.SP, -FRAME), *(isa.store_word(register, rv32.SP, at) for register, at in SAVED)]
    words.append(rv32.addi(rv32.A0, rv32.rs1(word), offset))
    value = word >> 20 & 31
    if is_store:
        words.append(isa.load_word(rv32.A1, rv32.SP, 4) if value == rv32.A0 else isa.move(rv32.A1, value))
    words.append(isa.load_immediate(rv32.A2, 2 if is_lower else int(is_store)))
    return words + isa.call(handler)


def taking(word):
    """The words of a stub that take what the handler has returned."""
    into = rv32.rd(word) if rv32.opcode(word) == rv32.LOAD else rv32.ZERO
    words = []
    if into != rv32.ZERO:
        far, down = SHIFTS.get(rv32.funct3(word), (0, ""))
        if far:
            words += [rv32.shift(name, rv32.A0, rv32.A0, far) for name in ("slli", down)]
        words += [isa.move(into, rv32.A0)] if into != rv32.A0 else []
    words += [isa.load_word(register, rv32.SP, at) for register, at in SAVED if register != into or into == rv32.ZERO]
    return words + [rv32.addi(rv32.SP, rv32.SP, FRAME)]


class Driving(Added):
    """What is added for loads and stores of devices."""

    FORM, NAME, WHAT = ACCESSES, "__devices", "what answers for devices"

    def __init__(self, elf, found, others):
        hosts = words_of_host(elf)
        self.known = frozenset(found)
        super().__init__(elf, found, others, device_handler.STATE_SIZE + len(device_handler.code_of(0, *hosts)))
        if self.groups:
            self.handler = self.start + device_handler.STATE_SIZE
            self.ahead = bytes(device_handler.STATE_SIZE) + device_handler.code_of(self.start, *hosts)

    def word(self, site):
        return word_at(self.elf.data, self.elf.place(site))

    def is_lower(self, site):
        """Whether a site stores the lower half of what the next one stores the upper half of."""
        pair = [self.word(address) for address in (site, site + 4) if address in self.known]
        if [rv32.opcode(word) for word in pair] != [rv32.STORE] * 2:
            return False
        lower, upper = pair
        return rv32.rs1(lower) == rv32.rs1(upper) and rv32.store_offset(upper) == rv32.store_offset(lower) + 4

    def told(self, site):
        return f"0x{self.word(site):08x}, of a device"

    def stub(self, address, site):
        """A stub's words. It ends as all stubs do, with a jump back."""
        word = self.word(site)
        ask, take = asking(word, self.is_lower(site), self.handler), taking(word)
        itself = [isa.load_word(register, rv32.SP, at) for register, at in SAVED]
        itself += [rv32.addi(rv32.SP, rv32.SP, FRAME), word]
        past = isa.jump(4 * (ACCESSES.size // 4 - 1 - len(ask) - 1 - len(take)))
        words = [*ask, isa.branch_if_zero(rv32.A1, 4 * (len(take) + 2)), *take, past, *itself]
        words += [rv32.NOP] * (ACCESSES.size // 4 - 1 - len(words))
        return struct.pack(f"<{len(words) + 1}I", *words, isa.jump(site + 4 - (address + ACCESSES.size - 4)))
