"""An ELF file's header, program headers, sections and symbols. Each field is held against the file's length before it
is used."""
import bisect
import collections
import functools
import struct

from replaycheck.guest.regions import USUAL_REGIONS

EXECUTABLE, RISC_V, LOAD, INTERPRETER, SYMBOLS = 2, 243, 1, 3, 2
HEADER, PROGRAM_HEADER, SECTION_HEADER, SYMBOL = 52, 32, 40, 16
ENTRY, PROGRAM_TABLE, SECTION_TABLE, FLAGS, PROGRAM_COUNT, SECTION_NAMES = 24, 28, 32, 36, 44, 50
IS_COMPRESSED, HAS_CODE, NO_TYPE, OBJECT, FUNCTION = 1, 4, 0, 1, 2
ROOM = 16777216
LONGEST_NAME = 1000
# Of how many addresses a line has all.
SHOWN = 4

Segment = collections.namedtuple("Segment", "kind offset vaddr paddr filesz memsz flags align")
Section = collections.namedtuple("Section", "name kind flags addr offset size link info align entsize")
Symbol = collections.namedtuple("Symbol", "name value size info other section")
# What makes the program refuse a file: its number, what it is, the cure, whether more of the file can be read all the same, and the region
# that a segment meets.
Refusal = collections.namedtuple("Refusal", "number what cure readable region", defaults=(None,))


def word_at(data, offset):
    return int.from_bytes(data[offset:offset + 4], "little")


def half_at(data, offset):
    return int.from_bytes(data[offset:offset + 2], "little")


def ends_within(data, offset, size):
    return offset + size <= len(data)


class Elf:
    """A file whose header and tables lie within it: `refusals` must have found none that isn't readable. `regions` are where a run has its
    heap and its stack."""

    def __init__(self, data, regions=USUAL_REGIONS):
        self.data, self.regions = data, regions
        self.entry, self.flags = word_at(data, ENTRY), word_at(data, FLAGS)
        self.segments = self.table(Segment, "<8I", PROGRAM_TABLE, PROGRAM_COUNT, PROGRAM_HEADER)
        has_sections = word_at(data, SECTION_TABLE) and half_at(data, 48)
        self.sections = self.table(Section, "<10I", SECTION_TABLE, 48, SECTION_HEADER) if has_sections else []
        self.loads = [segment for segment in self.segments if segment.kind == LOAD and (segment.memsz or segment.filesz)]
        self.symbol_table = next((i for i, section in enumerate(self.sections) if section.kind == SYMBOLS), None)

    @functools.cached_property
    def loaded(self):
        """The ranges that are loaded, in the order of the segments."""
        return [part for load in self.loads for part in self.regions.loaded(load)]

    def table(self, form, layout, place, count, size):
        at = word_at(self.data, place)
        return [form(*fields) for fields in struct.iter_unpack(layout, self.data[at:at + half_at(self.data, count) * size])]

    def section_named(self, name):
        """The first section of a name, or None."""
        at = half_at(self.data, SECTION_NAMES)
        table, wanted = self.sections[at] if at < len(self.sections) else None, name.encode() + b"\0"
        names = self.data[table.offset:table.offset + table.size] if table else b""
        return next((section for section in self.sections if names.startswith(wanted, section.name)), None)

    def section_name(self, section):
        """A section's name, with what can't be printed as `?`."""
        at = half_at(self.data, SECTION_NAMES)
        table = self.sections[at] if at < len(self.sections) else None
        names = self.data[table.offset:table.offset + table.size] if table else b""
        name = names[section.name:section.name + LONGEST_NAME].partition(b"\0")[0]
        return "".join(chr(byte) if 0x21 <= byte <= 0x7E else "?" for byte in name)

    @functools.cached_property
    def strings(self):
        """The string table of the symbols."""
        section = self.sections[self.sections[self.symbol_table].link]
        return self.data[section.offset:section.offset + section.size]

    @functools.cached_property
    def symbols(self):
        """All symbols that are of a section, in the order of their table."""
        if self.symbol_table is None:
            return []
        table = self.sections[self.symbol_table]
        found = struct.iter_unpack("<IIIBBH", self.data[table.offset:table.offset + table.size])
        return [symbol for symbol in map(Symbol._make, found) if symbol.section]

    @functools.cached_property
    def functions(self):
        return [symbol for symbol in self.symbols if symbol.info & 15 == FUNCTION]

    def name(self, symbol):
        """A symbol's name, with what can't be printed as `\\x1b`."""
        start = symbol.name
        text = self.strings[start:start + LONGEST_NAME].partition(b"\0")[0].decode("ascii", "backslashreplace")
        if text.isprintable():
            return text
        return "".join(character if character.isprintable() else f"\\x{ord(character):02x}" for character in text)

    def named(self, symbols, name):
        """Those of some symbols that have this name. A name may be the end of a longer text."""
        wanted = name.encode() + b"\0"
        return [symbol for symbol in symbols if self.strings.startswith(wanted, symbol.name)]

    @functools.cached_property
    def labels(self):
        """Symbols in code that are neither functions nor objects: what an assembler's file has where it names no
        type."""
        code = {i for i, section in enumerate(self.sections) if section.flags & HAS_CODE}
        return [symbol for symbol in self.symbols if symbol.info & 15 == NO_TYPE and symbol.section in code
                and self.name(symbol)[:1] not in ("$", ".", "")]

    @functools.cached_property
    def contents(self):
        """The segments that have bytes in the file, by address."""
        return sorted((load for load in self.loads if load.filesz), key=lambda load: load.vaddr)

    @functools.cached_property
    def content_starts(self):
        return [segment.vaddr for segment in self.contents]

    def content_at(self, address):
        """The segment that has an address's byte in the file, or None."""
        index = bisect.bisect_right(self.content_starts, address) - 1
        if index < 0 or address >= self.contents[index].vaddr + self.contents[index].filesz:
            return None
        return self.contents[index]

    def place(self, address, size=4):
        """Where in the file these bytes of memory stand; None where one segment hasn't them from the file."""
        segment = self.content_at(address)
        if segment is None or address + size > segment.vaddr + segment.filesz:
            return None
        return segment.offset + address - segment.vaddr

    @functools.cached_property
    def function_places(self):
        return Places(self.functions)

    @functools.cached_property
    def label_places(self):
        return Places(self.labels)

    def function_at(self, address):
        """The name of the function that an address belongs to, or else of the label before it, or None."""
        for places in (self.function_places, self.label_places):
            symbol = places.before(address)
            if symbol and (not symbol.size or address < symbol.value + symbol.size):
                return self.name(symbol)
        return None

    def where(self, address):
        """An address in words, with its function if it has one."""
        name = self.function_at(address)
        return f"0x{address:08x}" + (f" in {name}" if name else "")

    def where_all(self, addresses):
        """The first of some addresses, with their functions."""
        more = f" and {len(addresses) - SHOWN} more" if len(addresses) > SHOWN else ""
        return ", ".join(map(self.where, addresses[:SHOWN])) + more

    def extent(self, symbol):
        """How many bytes of the file a function has, up to the next one at most; where its size isn't known, up to a
        label."""
        segment = self.content_at(symbol.value)
        if segment is None:
            return 0
        ends = [segment.vaddr + segment.filesz, self.function_places.after(symbol.value)]
        ends.append(symbol.value + symbol.size if symbol.size else self.label_places.after(symbol.value))
        return min(ends) - symbol.value


class Places:
    """Symbols by address, the first of the table among those at one."""

    def __init__(self, symbols):
        first = {}
        for symbol in symbols:
            first.setdefault(symbol.value, symbol)
        self.starts = sorted(first)
        self.symbols = [first[value] for value in self.starts]

    def before(self, address):
        """The last symbol at an address or before it, or None."""
        index = bisect.bisect_right(self.starts, address)
        return self.symbols[index - 1] if index else None

    def after(self, address):
        """Where the next symbol stands."""
        index = bisect.bisect_right(self.starts, address)
        return self.starts[index] if index < len(self.starts) else 1 << 32


def beginning(data):
    """The refusal by a file's first bytes, or None."""
    if len(data) < HEADER or data[:4] != b"\x7fELF":
        return Refusal(20, "no ELF file", "take the file that the linker writes, not a .bin or a .hex", False)
    if data[4] != 1:
        return Refusal(21, "a file of 64 bits", "compile and link with -march=rv32im -mabi=ilp32", False)
    if data[5] != 1:
        return Refusal(22, "the bytes of a word in another order", "compile for little-endian RISC-V: -mlittle-endian",
                       False)
    if data[6] != 1 or word_at(data, 20) != 1:
        return Refusal(23, "a version of ELF other than 1", "the file is damaged: link it again", False)
    return None


def tables(data):
    """The refusal by tables that aren't within the file, or None."""
    count, sections, at = half_at(data, PROGRAM_COUNT), half_at(data, 48), word_at(data, SECTION_TABLE)
    if count == 0xFFFF or count and (half_at(data, 42) != PROGRAM_HEADER
                                     or not ends_within(data, word_at(data, PROGRAM_TABLE), count * PROGRAM_HEADER)):
        return Refusal(26, "program headers that aren't within the file", "the file is cut or damaged: link it again",
                       False)
    if at and sections and (half_at(data, 46) != SECTION_HEADER
                            or not ends_within(data, at, sections * SECTION_HEADER)):
        return Refusal(26, "section headers that aren't within the file", "the file is cut or damaged: link it again",
                       False)
    return None


def is_bad(data, segment):
    past = segment.filesz and not ends_within(data, segment.offset, segment.filesz)
    return segment.filesz > segment.memsz or past or segment.vaddr + segment.memsz > 2**32


def bad_symbols(elf):
    """The refusal by a symbol table that can't be read, or None."""
    if elf.symbol_table is None:
        return None
    table = elf.sections[elf.symbol_table]
    fault = Refusal(31, "a symbol table that can't be read",
                    "the file is damaged: link it again, or leave the symbols as the linker has them",
                    False)
    if table.entsize != SYMBOL or table.size % SYMBOL or not ends_within(elf.data, table.offset, table.size):
        return fault
    if table.link >= len(elf.sections):
        return fault
    strings = elf.sections[table.link]
    if not ends_within(elf.data, strings.offset, strings.size):
        return fault
    last = elf.data.rfind(b"\0", strings.offset, strings.offset + strings.size) - strings.offset
    return fault if any(symbol.name > last for symbol in elf.functions) else None


def meeting(elf):
    """Refusals by where segments lie: each that meets a region, and the first two that meet."""
    segments = sorted((load for load in elf.loads if load.memsz), key=lambda load: (load.vaddr, load.memsz))
    ranges = [(segment.vaddr, segment.vaddr + segment.memsz) for segment in segments]
    for header, (start, end) in zip(segments, ranges):
        for name, low, high in elf.regions.ranges:
            if name in elf.regions.met(header):
                yield Refusal(29, f"a segment at 0x{start:08x} to 0x{end - 1:08x}, in the {name}'s region, "
                              f"0x{low:08x} to 0x{high - 1:08x}",
                              "give that memory another ORIGIN in the linker script, such as 0x80000000", True, name)
    for (start, end), (after, _) in zip(ranges, ranges[1:]):
        if after < end:
            yield Refusal(29, f"segments that overlap, from 0x{start:08x} and from 0x{after:08x} on",
                          "part them in the linker script; -Wl,-Map=FILE shows what stands where", True)
            return


def too_large(elf):
    total = sum(end - start for start, end in elf.loaded)
    if total > ROOM:
        yield Refusal(30, f"{total} bytes to load, where {ROOM} can be",
                      "a linker script that reserves all RAM does so: make its heap and stack smaller", True)
    if len(elf.data) > ROOM:
        yield Refusal(30, f"a file of more than {ROOM} bytes",
                      "leave its debug information out: riscv64-unknown-elf-objcopy --strip-debug", True)


def refusals(data, regions=USUAL_REGIONS):
    """Why the program would refuse a file, for regions of heap and stack: all that can be told, in the order in which the program tests.
    After one that isn't readable there is none."""
    fault = beginning(data)
    if fault:
        return [fault]
    found = []
    if half_at(data, 16) != EXECUTABLE:
        found.append(Refusal(24, "a file that isn't linked to fixed addresses",
                             "link it, if it is an object; else with -static -no-pie", True))
    if half_at(data, 18) != RISC_V:
        return found + [Refusal(25, "a file for another processor",
                                "compile with a compiler for RISC-V: -march=rv32im -mabi=ilp32", False)]
    fault = tables(data)
    if fault:
        return found + [fault]
    elf = Elf(data, regions)
    if any(segment.kind == INTERPRETER for segment in elf.segments):
        found.append(Refusal(27, "a dynamic linker that is to load it", "link with -static -no-pie", True))
    if any(is_bad(data, load) for load in elf.loads):
        return found + [Refusal(28, "a segment that isn't within the file", "the file is cut or damaged: link it again",
                                False)]
    found += [*meeting(elf), *too_large(elf)]
    fault = bad_symbols(elf)
    return found + [fault] if fault else found
