"""Which bytes of memory `--any-memory` names: a range of addresses, or a symbol that has a size."""
from __future__ import annotations

from replaycheck.endings import Fault, naming
from replaycheck.guest.elf import refusals
from replaycheck.guest.regions import Regions
from replaycheck.guest.symbols import Symbols
from replaycheck.scripting.errors import Usage


def is_name(text: str) -> bool:
    """Whether a text is to be the name of a symbol: a range begins with a digit."""
    return not text[:1].isdigit() and text != ""


def symbol_range(symbols: Symbols, name: str) -> str:
    """Returns the bytes of a symbol as a range of addresses, without its end.

    # Errors

    `Usage` for a name that the file doesn't have, that is a label, or that two symbols have."""
    known = name.encode("utf-8", "surrogateescape")
    address = symbols.address(name)  # says which name is meant, if there is no such one
    places = sorted({(symbol.value, symbol.size) for symbol in symbols.elf.symbols if symbols.name(symbol) == known})
    sized = [place for place in places if place[1]]
    if len(sized) > 1:
        where = ", ".join(f"0x{at:08x}" for at, _ in sized)
        raise Usage(f"{symbols.file}: there are {len(sized)} symbols {name}, at {where}: name the addresses, A..B")
    if not sized:
        raise Usage(f"{symbols.file}: symbol {name} at 0x{address:08x} has no size: name the addresses, A..B")
    at, size = sized[0]
    return f"0x{at:08x}..0x{at + size:08x}"


def memory_of(file: str, texts: list[str], regions: Regions) -> list[str]:
    """Returns the values of `--any-memory` with addresses in place of names. Of a file that the program rejects, which then says why, they
    stay as they are.

    # Errors

    `Fault` for a name that is none of bytes."""
    if not any(is_name(text) for text in texts):
        return texts
    with naming(file), open(file, "rb") as opened:
        data = opened.read()
    if refusals(data, regions):
        return texts
    symbols = Symbols(data, file)
    try:
        return [symbol_range(symbols, text) if is_name(text) else text for text in texts]
    except Usage as fault:
        raise Fault(f"--any-memory: {fault}") from None
