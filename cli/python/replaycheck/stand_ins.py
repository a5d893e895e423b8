"""Stubs that `replaycheck adopt` has added to a file: each stands for an instruction of it, to which it jumps back."""
from dataclasses import dataclass


@dataclass(frozen=True)
class Form:
    """A kind of stubs: the symbol of their range, how long each is, and what its own name ends with."""

    range: str
    size: int
    suffix: str


CALLS, ACCESSES = Form("__replaycheck_stubs", 28, "$semihosting"), Form("__replaycheck_device_stubs", 112, "$device")
FORMS = {form.range: form for form in (CALLS, ACCESSES)}
LONGEST_FILE = 1 << 26


def ranges_of(data):
    """The ranges of stubs in a file: of each the form, the address and the bytes."""
    if not any(name.encode() in data for name in FORMS):
        return
    from replaycheck.guest.elf import Elf, refusals  # here, as few files have stubs
    if any(not refusal.readable for refusal in refusals(data)):
        return
    elf = Elf(data)
    for symbol in elf.symbols:
        form = FORMS.get(elf.name(symbol))
        place = elf.place(symbol.value, symbol.size) if form else None
        if place is not None:
            yield form, symbol.value, data[place:place + symbol.size]


class StandIns:
    """The stubs of a file, whose path may lead nowhere."""

    def __init__(self, file):
        try:
            with open(file, "rb") as opened:
                self.ranges = list(ranges_of(opened.read(LONGEST_FILE)))
        except OSError:
            self.ranges = []

    def site(self, address):
        """The address of the instruction for which the stub at an address stands, or None."""
        for form, start, content in self.ranges:
            if start <= address < start + len(content):
                last = ((address - start) // form.size + 1) * form.size - 4
                return jumped_to(start + last, int.from_bytes(content[last:last + 4], "little"))
        return None

    def name(self, address, name):
        """The name of a frame: a stub has that of the function for which it stands."""
        if self.site(address) is None:
            return name
        return next((name[:-len(form.suffix)] for form in FORMS.values() if name.endswith(form.suffix)), "") or name


def jumped_to(address, word):
    """The instruction before the one to which a stub's last word jumps, or None."""
    from replaycheck.guest.rv32 import JAL, branch_offset, opcode
    return address + branch_offset(word) - 4 & 0xFFFFFFFF if opcode(word) == JAL else None
