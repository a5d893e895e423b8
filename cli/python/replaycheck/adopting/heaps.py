"""Functions of a heap that have other names than C's four, and how each is made one of these."""
from __future__ import annotations

import re
from dataclasses import dataclass

from replaycheck.guest import instructions as isa, rv32
from replaycheck.guest.elf import Symbol
from replaycheck.guest.encodings import in_bytes, load_number, move

from .heap_names import KNOWN, LEFT

PARAMETERS = {"malloc": 1, "free": 1, "calloc": 2, "realloc": 2}
FORM = re.compile(r"([^=]+)=(\w+)\(([^()]*)\)")


@dataclass(frozen=True)
class Taken:
    """A function to take over: its name, its symbol, how long it is, the heap's function, the instructions that it becomes, each in bytes,
    their texts, and the address that gets the heap's name, where no jump goes there."""

    name: str
    symbol: Symbol
    size: int
    function: str
    codes: list[bytes]
    texts: list[str]
    named: int | None


class BadHeap(ValueError):
    """A value of --heap that can't be read."""


def place_of(text):
    """A parameter's place: ("register", number) or ("number", value)."""
    text = text.strip()
    if re.fullmatch("a[0-7]", text):
        return "register", rv32.A0 + int(text[1])
    if re.fullmatch(r"\d+|0x[0-9a-fA-F]+", text):
        number = int(text, 16 if text[:2] == "0x" else 10)
        if number < 2048:
            return "number", number
    raise BadHeap(f"'{text}' is no place of a parameter: a0 to a7, or a number up to 2047")


def heap_of(text):
    """A name, the heap's function that it is, and its parameters' places."""
    match = FORM.fullmatch(text)
    if match is None or match[2] not in PARAMETERS:
        raise BadHeap(f"'{text}' isn't of the form NAME=malloc(a0), NAME=free(a0), NAME=calloc(a0,a1) or "
                      "NAME=realloc(a0,a1)")
    places = [place_of(parameter) for parameter in match[3].split(",")]
    if len(places) != PARAMETERS[match[2]]:
        raise BadHeap(f"'{text}': {match[2]} has {PARAMETERS[match[2]]} of them")
    return match[1], match[2], places


def moved(to, place, unit):
    kind, number = place
    if kind == "number":
        return load_number(to, number, unit), f"li {rv32.NAMES[to]},{number}"
    return move(to, number, unit), f"mv {rv32.NAMES[to]},{rv32.NAMES[number]}"


def moves(places, unit):
    """Instructions and texts that bring parameters from their places to a0 and a1."""
    wanted = [(rv32.A0 + i, place) for i, place in enumerate(places)]
    if [place for _, place in wanted] == [("register", rv32.A1), ("register", rv32.A0)]:
        wanted = [(rv32.T1, wanted[0][1]), wanted[1], (rv32.A0, ("register", rv32.T1))]
    elif len(wanted) == 2 and wanted[1][1] == ("register", rv32.A0):
        wanted.reverse()
    return [moved(to, place, unit) for to, place in wanted if place != ("register", to)]


def length_of(pairs):
    return sum(len(code) for code, _ in pairs)


def hooks(elf):
    """What the program takes over in a file: a function's name for each address, the first of the table among
    several."""
    found = {}
    for symbol in elf.functions:
        name = elf.name(symbol)
        if name in PARAMETERS:
            found.setdefault(symbol.value, name)
    return found


class Plan:
    """What is taken over in a file: by its names already (`hooked`), by a cure (`taken`), and what can't be, each with
    the reason (`left`) or with the bytes that it would need (`small`)."""

    def __init__(self, elf, heaps, kept, unit):
        self.elf, self.unit, self.hooked, self.targets = elf, unit, hooks(elf), {}
        for address, name in self.hooked.items():
            self.targets.setdefault(name, address)
        self.taken, self.left, self.small, self.found = {}, [], [], set()
        wanted = {name: (function, places) for name, function, places in map(heap_of, KNOWN)}
        wanted.update((name, (function, places)) for name, function, places in heaps)
        for symbol in sorted(elf.functions + elf.labels, key=lambda function: function.value):
            name = elf.name(symbol)
            if name in kept or name in wanted:
                self.found.add(name)
            if name not in kept:
                self.plan(symbol, name, wanted)

    def plan(self, symbol, name, wanted):
        """Notes what becomes of one function."""
        original = name.partition(".")[0]
        if name in wanted:
            if symbol.value not in self.hooked and symbol.value not in self.taken:
                self.take(symbol, name, *wanted[name])
        elif name in LEFT:
            self.left.append((name, symbol.value, LEFT[name]))
        elif original in wanted:
            self.left.append((name, symbol.value,
                              f"the compiler's own copy of a part of {original}, whose parameters aren't known: "
                              f"compile {original} with __attribute__((noipa))"))

    def take(self, symbol, name, function, places):
        """Takes a function over: its words move the parameters and jump to the heap's function, or, where none is in
        the file or in reach, or no room for a jump, the address behind the moves gets its name, too."""
        pairs = moves(places, self.unit)
        behind = symbol.value + length_of(pairs)
        if self.hooked.get(behind) == function and self.has(symbol.value, pairs):
            self.hooked[symbol.value] = function
            return
        named, away = behind, self.targets.get(function, behind) - behind
        code = in_bytes(isa.jump(away))
        has_room = self.elf.extent(symbol) >= length_of(pairs) + len(code)
        if pairs and away and has_room and -isa.JUMP_REACH <= away < isa.JUMP_REACH:
            pairs.append((code, f"j {function}"))
            named = None
        needed = length_of(pairs) if named is None else length_of(pairs) + self.unit
        if symbol.value % self.unit or self.elf.extent(symbol) < needed:
            self.small.append((name, symbol.value, needed))
            return
        if named is None and self.has(symbol.value, pairs):
            self.hooked[symbol.value] = function
            return
        codes, texts = [code for code, _ in pairs], [text for _, text in pairs]
        self.taken[symbol.value] = Taken(name, symbol, self.elf.extent(symbol), function, codes, texts, named)

    def has(self, address, pairs):
        """Whether these instructions are at an address already."""
        place = self.elf.place(address, length_of(pairs))
        return place is not None and self.elf.data[place:place + length_of(pairs)] == b"".join(code for code, _ in pairs)

    def closed(self):
        """Ranges that a run never reaches: functions that are taken over."""
        sizes = {function.value: function.size for function in self.elf.functions}
        hooked = [(address, address + (sizes.get(address) or 4)) for address in self.hooked]
        return hooked + [(address, address + taken.size) for address, taken in self.taken.items()]
