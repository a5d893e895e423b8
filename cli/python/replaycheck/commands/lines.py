"""Adds the source line to each frame of a report, as it comes, and makes names
of C++ and Rust readable.

usage: replaycheck lines FILE [--full-paths | --strip-prefix FOLDER]
       [--no-demangle]

FILE is the program, with debug information (gcc -g). The report comes on
standard input. A session's replies, the output of `replaycheck talk`, a diff of
reports, and the table and the summary of a sweep will do.

Printed is what came in, line by line, with ` (file.c:12)` after each frame that
has a line. An inlined call gets a frame of its own before the one of its
caller, at the same address. A line of a diff or of a table stays one line, and
has both places: ` (queue.h:7 in file.c:12)`. A name such as _ZN5gauge4markEv is
gauge::mark(). Where there is no c++filt, names stay, and a line on standard
error says so.

Options:
  --full-paths           print the whole paths of files
  --strip-prefix FOLDER  print what is below a folder
  --no-demangle          print names as the symbol table has them

Exit status:
  0  every line was passed on, and some frame has a source line, or there is no
     frame
  1  there were frames, and none has a source line
  2  it failed: a line on standard error says why; what came in is still passed
     on

Environment:
  ADDR2LINE  the addr2line that finds source lines, instead of the first of
             riscv64-unknown-elf-addr2line, riscv64-linux-gnu-addr2line and
             addr2line on the path
  CXXFILT    the c++filt that makes names readable, instead of the first of
             riscv64-unknown-elf-c++filt, riscv64-linux-gnu-c++filt and c++filt
             on the path"""
from __future__ import annotations

import os
import re
import sys
from argparse import Namespace
from collections.abc import Iterator

from replaycheck.demangling import Demangler
from replaycheck.endings import Fault, flush, naming, tell, write
from replaycheck.options import Parser
from replaycheck.places import Paths, Place, Places

FRAME = re.compile(r"((?:[ +-]|[<>] )?   (at|by) (0x[0-9a-f]{8}): )([!-~]+)$")
IN_TABLE = re.compile(r"((?:of size [124]|\(s\)|realloc\(\)|lost|reachable) at (0x[0-9a-f]{8}): )([^\s,]+)((?:, by [^\s,]+)*)(?=, by |$)")


class Passing:
    """What was found so far in the lines that are passed on."""

    def __init__(self, places: Places, names: Demangler):
        self.places, self.names, self.frames, self.found = places, names, 0, 0

    def at(self, address: str) -> list[Place]:
        told = self.places.at(address)
        self.frames, self.found = self.frames + 1, self.found + bool(told)
        return told

    def in_one_line(self, text: str, name: str, address: str) -> str:
        told, name = self.at(address), self.places.name(address, name)
        return text + self.names.name(name) + (f" ({' in '.join(map(str, told))})" if told else "")

    def in_table(self, found: re.Match[str]) -> str:
        text, address, name, callers = found.groups()
        others = ", by ".join(map(self.names.name, callers.split(", by ")))
        return self.in_one_line(text, name, address) + others

    def with_places(self, line: str) -> str:
        """A line, with the places of its frames."""
        frame = FRAME.match(line)
        if not frame:
            return IN_TABLE.sub(self.in_table, line)
        text, word, address, name = frame.groups()
        if not text.startswith(f"   {word}"):
            return self.in_one_line(text, name, address)
        told = self.at(address)
        symbols = [*(place.function for place in told[:-1]), self.places.name(address, name)]
        names = [self.names.name(symbol) for symbol in symbols]
        lines = (f"   {'by' if at else word} {address}: {shown}" for at, shown in enumerate(names))
        return "\n".join(f"{line} ({place})" for line, place in zip(lines, told)) or text + names[-1]


def lines_at_hand() -> Iterator[list[str]]:
    """The lines of standard input, as many at a time as have come."""
    part = b""
    while True:
        with naming("standard input"):
            come = os.read(sys.stdin.fileno(), 65536)
        *lines, part = (part + come).split(b"\n")
        texts = [line.decode("utf-8", "surrogateescape") + "\n" for line in lines]
        yield texts if come or not part else [part.decode("utf-8", "surrogateescape")]
        if not come:
            return


def options_of() -> Namespace:
    parser = Parser(__doc__)
    parser.add_argument("file")
    parser.add_argument("--full-paths", action="store_true")
    parser.add_argument("--strip-prefix")
    parser.add_argument("--no-demangle", action="store_true")
    options = parser.read()
    if options.full_paths and options.strip_prefix is not None:
        parser.error("--full-paths and --strip-prefix at once")
    return options


def main() -> int:
    options = options_of()
    passing: Passing | None = None
    fault: Fault | None = None
    names = Demangler(not options.no_demangle)
    try:
        passing = Passing(Places(options.file, Paths(options.full_paths, options.strip_prefix)), names)
    except Fault as found:
        fault = found
    for lines in lines_at_hand():
        for line in lines:
            text = line.rstrip("\r\n")
            try:
                write(passing.with_places(text) + line[len(text):] if passing and not fault else line)
            except Fault as found:
                fault = found
                write(line)
        flush()
    if names.fault:
        tell("lines", Fault(f"no names as in the source: {names.fault}"))
    if fault:
        raise fault
    return int(passing is not None and passing.frames > 0 and passing.found == 0)
