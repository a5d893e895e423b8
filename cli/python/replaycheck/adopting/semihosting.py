"""Calls of a host by semihosting: three instructions, with the operation in a0 and its parameter in a1. Each becomes a jump
to a stub, which calls what answers."""
import struct

from replaycheck.executing import arguments
from replaycheck.guest import instructions as isa, rv32
from replaycheck.guest.elf import OBJECT
from replaycheck.stand_ins import CALLS

from . import host_handler
from .added import Added

# slli zero,zero,31; ebreak; srai zero,zero,7: the outer two do nothing, so no compiler makes them for itself.
SEQUENCE = struct.pack("<3I", rv32.shift("slli", rv32.ZERO, rv32.ZERO, 31), rv32.EBREAK, rv32.shift("srai", rv32.ZERO, rv32.ZERO, 7))


def sites(elf, kept, unit):
    """Addresses of the middle one of the three, in any segment, but for those in functions that are kept. Instructions are at multiples of
    the unit; those three always have 32 bits."""
    found = set()
    for segment in elf.contents:
        at, end = elf.data.find(SEQUENCE, segment.offset, segment.offset + segment.filesz), segment.offset + segment.filesz
        while at >= 0:
            address = segment.vaddr + at - segment.offset
            if address % unit == 0 and elf.function_at(address) not in kept:
                found.add(address + 4)
            at = elf.data.find(SEQUENCE, at + 1, end)
    return sorted(found)


class Hosting(Added):
    """What is added for the calls of a host."""

    FORM, NAME, WHAT = CALLS, "__semihosting", "what answers calls of a host"

    def __init__(self, elf, found, others):
        room = arguments.symbol_of(elf, arguments.ROOM)
        self.has_room = room is not None
        state = host_handler.state_of(self.has_room)
        super().__init__(elf, found, others, len(state) + len(host_handler.code_of(0, 0)))
        if self.groups:
            self.handler = self.start + len(state)
            self.room = room[0] if room else self.start + host_handler.ROOM_AT
            self.ahead = state + host_handler.code_of(self.start, self.room)

    def told(self, site):
        return "ebreak, a call of a host"

    def stub(self, address, site):
        """A stub's words: it saves ra, calls the handler and jumps back to where the site goes on."""
        words = [rv32.addi(rv32.SP, rv32.SP, -16), isa.store_word(rv32.RA, rv32.SP, 12), *isa.call(self.handler),
                 isa.load_word(rv32.RA, rv32.SP, 12), rv32.addi(rv32.SP, rv32.SP, 16)]
        return struct.pack("<7I", *words, isa.jump(site + 4 - (address + CALLS.size - 4)))

    def symbols(self):
        yield from super().symbols()
        if not self.has_room:
            yield arguments.ROOM, self.room, host_handler.ROOM_SIZE, OBJECT
