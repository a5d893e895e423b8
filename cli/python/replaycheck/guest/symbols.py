"""The names of a program's file: where a symbol is, and which function an address belongs to, by the rule of the report."""
from __future__ import annotations

import difflib
import functools
import struct

from replaycheck.guest.elf import Elf, Places, Symbol
from replaycheck.reports import Address
from replaycheck.scripting.errors import Usage

NO_NAME = "???"
MAPPING = b"$"  # what the assembler calls places where code and data meet


def shown(name: bytes) -> str:
    """Returns a name as a report has it: `?` for each byte that is no visible ASCII character."""
    return "".join(chr(byte) if 0x21 <= byte <= 0x7E else "?" for byte in name)


class Symbols:
    """The symbols of a file that the program has accepted."""

    def __init__(self, data: bytes, name: str) -> None:
        self.data, self.file = data, name

    @functools.cached_property
    def elf(self) -> Elf:
        return Elf(self.data)

    def name(self, symbol: Symbol) -> bytes:
        strings = self.elf.strings
        end = strings.find(b"\0", symbol.name)
        return strings[symbol.name:end if end >= 0 else len(strings)]

    @functools.cached_property
    def places(self) -> dict[bytes, int]:
        """The address of each name; of names that are there twice, that of the first in the table."""
        try:
            found = [(self.name(symbol), symbol.value) for symbol in self.elf.symbols]
        except (IndexError, struct.error):  # a table that no part of a report needs
            found = []
        return {name: value for name, value in reversed(found) if name and not name.startswith(MAPPING)}

    @functools.cached_property
    def functions(self) -> Places:
        try:
            return Places([function for function in self.elf.functions if self.name(function)])
        except (IndexError, struct.error):
            return Places([])

    def address(self, name: str) -> Address:
        """Returns the address of a symbol.

        # Errors

        `Usage` if the file doesn't have it."""
        known = name.encode("utf-8", "surrogateescape")
        if known not in self.places:
            like = difflib.get_close_matches(name, [place.decode("utf-8", "surrogateescape") for place in self.places], 1)
            raise Usage(f"{self.file}: no symbol {name}" + (f": did you mean {like[0]}?" if like else ""))
        return Address(self.places[known])

    def function_at(self, address: int) -> str:
        """Returns the name that a report has for an address: `???` if no function is there."""
        symbol = self.functions.before(address)
        is_there = symbol is not None and (not symbol.size or address < symbol.value + symbol.size)
        return shown(self.name(symbol)) if is_there else NO_NAME
