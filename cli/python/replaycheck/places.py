"""Where in the source an instruction stands, by one addr2line that is kept open."""
from __future__ import annotations

import functools
import os
from dataclasses import dataclass

from replaycheck.children import piped
from replaycheck.endings import Fault
from replaycheck.programs import tool
from replaycheck.stand_ins import StandIns

PROGRAMS = ("riscv64-unknown-elf-addr2line", "riscv64-linux-gnu-addr2line", "addr2line")
NEEDS = "source lines need addr2line, of Debian's binutils-riscv64-unknown-elf, or the one that ADDR2LINE names"
NOWHERE = "0xffffffff"  # no function has code there, so that its answer is the end of the one before
AT_ONCE = 1000  # so many questions fit into a pipe


@dataclass
class Place:
    """A function, its file as it is asked for, and a line of it. `path` is what the debug information has for
    the file."""

    function: str
    path: str
    file: str
    line: int

    def __str__(self):
        return f"{self.file}:{self.line}"


class Paths:
    """How source files are named: bare, by their full paths, from below a folder, or, below the current one, from there."""

    def __init__(self, full=False, prefix: str | None = None, from_here=False):
        self.full, self.prefix = full, prefix and prefix.rstrip("/") + "/"
        self.heres = names_of_here() if from_here and not full and prefix is None else []

    def name(self, path):
        whole = os.path.normpath(path)
        if self.prefix:
            return whole.removeprefix(self.prefix)
        for here in self.heres:
            below = os.path.normpath(here + path) if not path.startswith("/") else whole
            if below.startswith(here):
                return below[len(here):]
        return whole if self.full or self.heres else os.path.basename(path)


def names_of_here():
    """What the current folder is called, in the shell too, where links may lead to it."""
    names, shells = [os.path.realpath(".")], os.environ.get("PWD", "")
    if shells.startswith("/") and os.path.realpath(shells) == names[0]:
        names.append(os.path.normpath(shells))
    return [name.rstrip("/") + "/" for name in dict.fromkeys(names)]


class NoPlaces:
    """Stands for the places of a program where there is no addr2line: no address has one."""

    known: dict = {}

    def learn(self, addresses):
        self.known = {**self.known, **dict.fromkeys(addresses, ())}

    def at(self, address):
        return ()

    def name(self, address, name):
        return name


class Places:
    """The places of a program's addresses, each of which is asked for once. A stub that `adopt` has added has the place of
    the instruction for which it stands."""

    def __init__(self, file, paths):
        self.file, self.paths, self.known, self.stand_ins = file, paths, {}, StandIns(file)
        if not os.path.isfile(file):
            raise Fault(f"{file}: no such file")
        self.child = piped([tool("ADDR2LINE", PROGRAMS), "-a", "-f", "-i", "-e", file], needs=NEEDS)

    def read(self):
        line = self.child.stdout.readline().decode("utf-8", "surrogateescape")
        if not line:
            self.ended()
        return line.rstrip("\n")

    def ended(self):
        self.child.wait()
        said = self.child.said().decode("utf-8", "surrogateescape").strip()
        raise Fault(f"addr2line ended{said and ': ' + said}")

    def learn(self, addresses):
        """Asks for the places of addresses, many at a time."""
        new = [wanted for wanted in dict.fromkeys(addresses) if wanted not in self.known]
        for begin in range(0, len(new), AT_ONCE):
            part = new[begin:begin + AT_ONCE]
            try:
                self.child.stdin.write("".join(f"{self.asked(wanted)}\n{NOWHERE}\n" for wanted in part).encode())
                self.child.stdin.flush()
            except BrokenPipeError:
                self.ended()
            # addr2line reads the file meanwhile
            rows = [self.table.misread(int(str(self.asked(wanted)), 16)) for wanted in part]
            for address, row in zip(part, rows):
                self.known[address] = self.righted(row, self.answer())

    def asked(self, address):
        """The address that addr2line is asked for: a stub's is that of its site."""
        site = self.stand_ins.site(int(str(address), 16))
        return address if site is None else f"0x{site:08x}"

    def name(self, address, name):
        return self.stand_ins.name(int(str(address), 16), name)

    def answer(self):
        """The places that addr2line tells for one address."""
        self.read()
        told = list(iter(self.read, NOWHERE))
        self.read(), self.read()
        return [place for place in map(self.place, told[::2], told[1::2]) if place]

    @functools.cached_property
    def table(self):
        from replaycheck.line_table import LineTable  # here, as a report without errors asks for no place
        return LineTable(self.file)

    def righted(self, row, told):
        """The places of an address. If addr2line has taken the including file for that of the innermost, it is the file of the line table's
        row."""
        if row is None or not told or row.line != told[0].line or not is_same(told[0].path, row.including, row.path):
            return told
        return [Place(told[0].function, row.path, self.paths.name(row.path), row.line), *told[1:]]

    def place(self, function, told):
        path, _, line = told.split(" (discriminator")[0].rpartition(":")
        if path == "??" or not line.isdigit() or line == "0":
            return None
        return Place(function, path, self.paths.name(path), int(line))

    def at(self, address):
        """The places of an address: that of its instruction, and where that is part of an inlined call, those of the
        callers."""
        if address not in self.known:
            self.learn([address])
        return self.known[address]


def is_same(path, one, other):
    """Whether a path is rather one than another one. Both may lack the folder where they begin."""
    names = [os.path.basename(name) for name in (path, one, other)]
    if names[1] != names[2]:
        return names[0] == names[1]
    whole = [os.path.normpath(name) for name in (path, one, other)]
    return whole[0].endswith(whole[1]) and not whole[0].endswith(whole[2])
