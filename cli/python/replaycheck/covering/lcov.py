"""What runs have executed as an info file, which `genhtml` and other programs for lcov read. Each count is 1 or 0."""
from __future__ import annotations

from typing import Iterator

from .covered import Covered, SourceFile


def plain(text: str) -> str:
    """A name that is one line, whatever is in it: control characters as `\\x0a`, and bytes that are no UTF-8."""
    if text.isprintable():
        return text
    return "".join(character if character.isprintable()
                   else "".join(f"\\x{byte:02x}" for byte in character.encode("utf-8", "surrogateescape"))
                   for character in text)


def records(file: SourceFile) -> Iterator[str]:
    """The lines of a source file."""
    yield "TN:"
    yield f"SF:{plain(file.name)}"
    functions = [(plain(one.name).replace(",", "\\x2c"), one) for one in file.in_order()]
    for name, function in functions:
        yield f"FN:{function.first},{name}"
    for name, function in functions:
        yield f"FNDA:{int(function.is_executed)},{name}"
    yield f"FNF:{len(functions)}"
    yield f"FNH:{sum(one.is_executed for _, one in functions)}"
    ways = [(line, block, way, "-" if not branch.sides else str(int(is_taken)))
            for line, block, branch in file.branches for way, (is_taken, _) in enumerate(branch.ways)]
    for number, block, way, taken in ways:
        yield f"BRDA:{number},{block},{way},{taken}"
    yield f"BRF:{len(ways)}"
    yield f"BRH:{sum(row[3] == '1' for row in ways)}"
    for number, line in sorted(file.lines.items()):
        yield f"DA:{number},{int(line.is_executed)}"
    yield f"LF:{len(file.lines)}"
    yield f"LH:{len(file.lines) - len(file.unexecuted)}"
    yield "end_of_record"


def text_of(covered: Covered, *_) -> str:
    return "".join(f"{record}\n" for file in covered.files for record in records(file))
