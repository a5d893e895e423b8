"""What a file becomes: each change of bytes, where it stands and what it is."""
import struct
from dataclasses import dataclass

from replaycheck.guest import elf as form
from replaycheck.guest import instructions as isa
from replaycheck.guest.encodings import in_bytes, nop
from replaycheck.stand_ins import FORMS

from .heap_names import MAPPED_MARK

WEAK, NO_SECTION = 0x20, 0xFFF1
READ_WRITE_RUN, WORD = 7, 4


@dataclass(frozen=True)
class Change:
    """A change of a file's bytes: where they are, how many, and what they are."""

    offset: int
    size: int
    what: str


class Cured:
    """A file's bytes, which change by change become others. What is added stands behind what was there."""

    def __init__(self, elf):
        self.elf, self.data, self.changes = elf, bytearray(elf.data), []

    def put(self, offset, content, what):
        self.data[offset:offset + len(content)] = content
        self.changes.append(Change(offset, len(content), what))

    def add(self, content, what):
        """Adds bytes at the next multiple of 4, and returns where they begin."""
        gap = -len(self.data) % 4
        self.changes.append(Change(len(self.data), gap + len(content), what))
        self.data += bytes(gap) + content
        return len(self.data) - len(content)

    def put_code(self, address, code, what):
        self.put(self.elf.place(address, len(code)), code, f"0x{address:08x}: {what}")

    def name_addresses(self, named):
        """Adds symbols: each a name, an address, a size, a kind and a section. The tables move to the end, as they are
        longer."""
        index = self.elf.symbol_table
        table = self.elf.sections[index]
        strings, symbols = bytearray(self.elf.strings), bytearray(self.data[table.offset:table.offset + table.size])
        places = {}
        for name, address, size, kind, section in named:
            if name not in places:
                places[name] = len(strings)
                strings += name.encode() + b"\0"
            symbols += struct.pack("<IIIBBH", places[name], address, size, WEAK | kind, 0, section)
        suffixes = tuple(kind.suffix for kind in FORMS.values())
        added = ", ".join(f"{name} at 0x{address:08x}" for name, address, *_ in named if not name.endswith(suffixes))
        stubs = sum(name.endswith(suffixes) for name, *_ in named)
        added += f" and {stubs} of stubs" if stubs else ""
        self.move_section(table.link, self.add(strings, "the names of symbols, moved here"), len(strings),
                          "names of symbols")
        self.move_section(index, self.add(symbols, f"the symbols, moved here, with {added}"), len(symbols), "symbols")

    def move_section(self, index, offset, size, what):
        header = form.word_at(self.data, form.SECTION_TABLE) + index * form.SECTION_HEADER
        self.put(header + 16, struct.pack("<II", offset, size), f"where the {what} stand, and their size")

    def load_too(self, segments):
        """Adds segments: of each where its bytes stand in the file, its address, its size, its rights and its alignment."""
        at, count = form.word_at(self.data, form.PROGRAM_TABLE), len(self.elf.segments)
        table = bytes(self.data[at:at + count * form.PROGRAM_HEADER])
        for offset, address, size, rights, align in segments:
            table += struct.pack("<8I", form.LOAD, offset, address, address, size, size, rights, align)
        added = ", ".join(f"one for 0x{address:08x}" for _, address, *_ in segments)
        place = self.add(table, f"the program headers, moved here, with {added}")
        self.put(form.PROGRAM_TABLE, struct.pack("<I", place), "where the program headers stand")
        self.put(form.PROGRAM_COUNT, struct.pack("<H", count + len(segments)), "how many program headers there are")


def cured(findings):
    """The file with all that can be cured, as bytes, and the changes."""
    result = Cured(findings.elf)
    for function in findings.plan.taken.values():
        address = function.symbol.value
        for code, text in zip(function.codes, function.texts):
            result.put_code(address, code, f"{function.name}: {text}")
            address += len(code)
    for instruction in findings.control:
        result.put_code(instruction.address, in_bytes(instruction.new), f"{instruction.text} for {isa.control(instruction.word)}")
    for instruction in findings.stack:
        result.put_code(instruction.address, nop(instruction.length), f"nop for 0x{instruction.word:08x}, which sets sp")
    segments = [(segment.offset, segment.paddr, segment.filesz, segment.flags, segment.align) for segment in findings.copied]
    named = [(taken.function, taken.named, taken.size - (taken.named - taken.symbol.value), form.FUNCTION, taken.symbol.section)
             for taken in findings.plan.taken.values() if taken.named is not None]
    if findings.elf.symbol_table is not None:
        named += [(MAPPED_MARK, taken.symbol.value, taken.size, form.FUNCTION, taken.symbol.section)
                  for taken in findings.plan.taken.values() if taken.named != taken.symbol.value]
    for added in findings.added():
        segments += led(result, added)
        named += [(*symbol, NO_SECTION) for symbol in added.symbols()] if result.elf.symbol_table is not None else []
    if segments:
        result.load_too(segments)
    if named:
        result.name_addresses(named)
    return bytes(result.data), result.changes


def led(result, added):
    """Leads instructions to their stubs, and adds these. Returns the segments to be loaded."""
    for address, content, stubs in added.pieces():
        for site, stub in stubs.items():
            result.put_code(site, in_bytes(isa.jump(stub - site)), f"j 0x{stub:08x} for {added.told(site)}")
        offset = result.add(content, f"{added.WHAT}, for 0x{address:08x}")
        yield offset, address, len(content), READ_WRITE_RUN, WORD
