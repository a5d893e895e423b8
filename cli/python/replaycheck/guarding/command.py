"""The command line of `replaycheck guards`: what it takes, and what it prints."""
from __future__ import annotations

import argparse
import sys
from typing import List, Tuple

from replaycheck.endings import Fault, flush, naming, write
from replaycheck.guest.code import without
from replaycheck.guest.elf import Elf, refusals
from replaycheck.options import FURTHEST_STEP, Parser, address, number

from .first_page import PAGE, used
from .gaps import ALLOCATED, Gaps, by_map, by_symbols, is_object
from .link_map import read_map
from .padding import padded

LONGEST_FILE = 1 << 26
USUAL_ROOM, MOST_ROOM = 16, 4096
MOST_MARKS, LONGEST_MARK = 4096, 1 << 20  # of a session


def options_of(page: str) -> argparse.Namespace:
    parser = Parser(page)
    parser.add_argument("file", nargs="?")
    parser.add_argument("--map")
    parser.add_argument("--pad")
    parser.add_argument("--bytes", type=number(1, MOST_ROOM), default=USUAL_ROOM)
    parser.add_argument("--undefined", action="append", default=[])
    parser.add_argument("--null-page", action="store_true")
    parser.add_argument("--step", type=number(0, FURTHEST_STEP))
    options = parser.read()
    if options.pad is None and options.file is None:
        parser.error("FILE is missing, or --pad SCRIPT")
    if options.pad is not None:
        check_pad(parser, options)
    return options


def check_pad(parser: Parser, options: argparse.Namespace) -> None:
    """Rejects what doesn't go with --pad, or what it needs and isn't there."""
    given = {"--undefined": options.undefined, "--null-page": options.null_page, "--step": options.step is not None}
    others = [name for name, value in given.items() if value]
    if others:
        parser.error(f"--pad doesn't go with {others[0]}")
    if options.map is None:
        parser.error("--pad needs --map")
    if options.file is not None:
        parser.error("--pad doesn't go with FILE")


def say(text: str) -> None:
    """Writes a line to standard error."""
    sys.stderr.buffer.write(f"replaycheck guards: {text}\n".encode("utf-8", "surrogateescape"))


def guards(options: argparse.Namespace) -> int:
    """Prints the marks of a file, or the padded script. Returns the exit status."""
    if options.pad is not None:
        return pad(options)
    elf = elf_of(options.file)
    found = by_map(elf, read_map(options.map), options.bytes) if options.map is not None else by_symbols(elf, options.bytes)
    step, marks = options.step or 0, []
    for place in options.undefined:
        for start, size in ranges_of(elf, options.file, place):
            marks += [f"mark {step} 0x{at:x} {min(LONGEST_MARK, start + size - at)} undefined"
                      for at in range(start, start + size, LONGEST_MARK)]
    if options.null_page:
        marks += [f"mark {step} 0x{start:x} {end - start} noaccess" for start, end in null_page(elf)]
    marks += [f"mark {step} 0x{start:x} {end - start} noaccess" for start, end in sorted(found.ranges)]
    if len(marks) > MOST_MARKS:
        raise Fault(f"{options.file}: {len(marks)} marks, where a session takes {MOST_MARKS}")
    write("".join(mark + "\n" for mark in marks))
    flush()
    say_what(found)
    return 0


def say_what(found: Gaps) -> None:
    """Says how many objects are guarded, and what was left out."""
    say(f"{found.guarded} of {len(found.objects)} objects have a closed byte after them; gaps that are closed: {len(found.ranges)}")
    if found.left_out:
        say(f"sections left out: {', '.join(f'{name} ({why})' for name, why in found.left_out.items())}")
    if found.unsure:
        counted = ", ".join(f"{count} in {name}" for name, count in found.unsure.items())
        say(f"not closed, as something without a symbol may be there: {counted}; --map FILE shows whether it is")


def null_page(elf: Elf) -> List[List[int]]:
    """The ranges of the first 256 addresses that are closed. Says which the program uses."""
    parts = used(elf)
    if parts:
        ranges = ", ".join(f"0x{start:x}..0x{end:x}" for start, end in parts)
        say(f"not closed of the first {PAGE} addresses, as the program has something there: {ranges}")
    return without([[0, PAGE]], parts)


def elf_of(path: str) -> Elf:
    """Reads a file that has symbols.

    # Errors

    `Fault` if it can't be read, or has none."""
    with naming(path), open(path, "rb") as file:
        data = file.read(LONGEST_FILE + 1)
    refused = next((refusal for refusal in refusals(data) if not refusal.readable), None)
    if refused:
        raise Fault(f"{path}: {refused.what}: {refused.cure}")
    elf = Elf(data)
    if not elf.symbols:
        raise Fault(f"{path}: no symbols, which say where objects end: link without -s, and don't strip it")
    return elf


def ranges_of(elf: Elf, path: str, place: str) -> List[Tuple[int, int]]:
    """The ranges that a section, an object or `A..B` is, each with its first address and its size."""
    sections = [(section.addr, section.size) for section in elf.sections
                if section.flags & ALLOCATED and section.size and elf.section_name(section) == place]
    if sections:
        return sections
    objects = sorted({(symbol.value, symbol.size) for symbol in elf.symbols if is_object(symbol) and elf.name(symbol) == place})
    if objects:
        return objects
    begin, dots, end = place.partition("..")
    if dots and address(begin) < address(end) <= 1 << 32 and (address(end) < 1 << 32 or end.lower() == "0x100000000"):
        return [(address(begin), address(end) - address(begin))]
    raise Fault(f"{place}: no section, no object and no range A..B of {path}")


def pad(options: argparse.Namespace) -> int:
    """Prints the padded script. Returns the exit status."""
    with naming(options.pad), open(options.pad, encoding="utf-8", errors="surrogateescape") as file:
        script = file.read()
    made = padded(script, options.pad, read_map(options.map), options.bytes)
    write(made.text)
    flush()
    say(f"{made.count} sections of data are parted by {options.bytes} bytes each, {made.added} bytes in all")
    if made.whole_files:
        say(f"with all objects of a file in one section: {made.whole_files}; compile with -fdata-sections to part these too")
    if made.commons:
        say(f"not parted: common symbols, of {made.commons} files: compile with -fno-common")
    for pattern in made.missing:
        say(f"not parted: {pattern}, which isn't in {options.pad}")
    return 0
