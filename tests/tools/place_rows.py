"""Source places where the first code of a unit is from an included file: programs built here, what tools say of them, and line tables
that are damaged."""
import os
import random
import shutil
import subprocess

from adopt_rows import GCC
from checkout import TOP
from replaycheck.guest.elf import Elf
from replaycheck.line_table import LineTable
from replaycheck.places import Paths, Places

FIRMWARE = TOP / "examples" / "firmware"
OTHERS = ("llvm-addr2line", "llvm-addr2line-14")  # which begin with file 1
LIBRARY = """#include <stdlib.h>

/* A library that is one header. */

static inline __attribute__((always_inline)) void put(char *block, int at) {
  block[at] = 1;
}

static __attribute__((noinline)) char *make(int size) {
  char *block = malloc(size);
  put(block, size);
  return block;
}
"""
MAIN = """#include "library.h"
int main(void) { free(make(3)); return 0; }
"""
PUT, MAKE, TAKE = "library.h:6", "library.h:11", "library.h:10"
LOG = f"({PUT})", "main (main.c:2)", "alloc'd", f"make ({TAKE})", "main (main.c:2)"
# How a program is built, and the option for its instructions.
BUILDS = [("DWARF 5", ["-gdwarf-5"], []), ("DWARF 4", ["-gdwarf-4"], []), ("DWARF 2", ["-gdwarf-2", "-gstrict-dwarf"], []),
          ("functions apart", ["-ffunction-sections", "-Wl,--gc-sections"], []), ("compressed", ["-gz"], []),
          ("split", ["-gsplit-dwarf"], []), ("linked as a whole", ["-flto"], []), ("16 bits", ["-march=rv32imac"], ["--isa=rv32imac"])]
# What each format says of the place.
SAYS = {"gcc": f"{PUT}: warning: Invalid write", "github": "file=library.h,line=6", "json": '{"file": "library.h", "line": 6}',
        "junit": PUT, "sarif": '{"uri": "library.h"}, "region": {"startLine": 6}',
        "valgrind-xml": "<file>library.h</file>\n      <line>6</line>"}
DAMAGES = 1000


def build(room, name, options):
    """A program whose first code is a library's, from a header."""
    (room / "library.h").write_text(LIBRARY)
    (room / "main.c").write_text(MAIN)
    sources = [FIRMWARE / it for it in ("start.S", "system.c", "heap_by_name.c")]
    target = ["-march=rv32im", "-mabi=ilp32", "--specs=picolibc.specs", "-nostartfiles", "-T", FIRMWARE / "firmware.ld"]
    subprocess.run([GCC, *target, "-O1", "-g", *options, *sources, "main.c", "-o", name], cwd=room, check=True)
    return room / name


def lacking(text, wanted):
    return [f"no {it!r} in {text}" for it in wanted if it not in text]


def log_faults(tests, name, options, **environment):
    status, _, log = tests.run(["exec", "-q", "--error-exitcode=9", *options, name], **environment)
    at = 0
    for it in LOG:
        at = log.find(it, at)
        if at < 0:
            return [f"not in turn: {it!r} in {log}"]
    return [] if status == 9 else [f"status {status}"]


def all_places(path, addresses):
    places = Places(str(path), Paths())
    places.learn(addresses)
    return [[(it.function, str(it)) for it in places.at(address)] for address in addresses]


def other_faults(path, other):
    """Each instruction has the places that another addr2line says, with inlined calls."""
    elf = Elf(path.read_bytes())
    addresses = [f"0x{at:08x}" for it in elf.functions if elf.name(it) in ("make", "main") for at in range(it.value, it.value + it.size, 2)]
    own = all_places(path, addresses)
    os.environ["ADDR2LINE"] = other
    wanted = all_places(path, addresses)
    del os.environ["ADDR2LINE"]
    return [f"{at}: {one} for {two}" for at, one, two in zip(addresses, own, wanted) if one != two]


def damaged(path, room):
    """Line tables that begin as the file's, and have other bytes: each has an answer, or none."""
    data, chance = path.read_bytes(), random.Random(11)
    elf = Elf(data)
    section = elf.section_named(".debug_line")
    address, right = next(it.value for it in elf.functions if elf.name(it) == "make"), 0
    for _ in range(DAMAGES):
        table = bytearray(data[section.offset:section.offset + section.size])
        for _ in range(chance.choice((1, 1, 2, 20))):
            table[chance.randrange(len(table))] = chance.choice((0, 1, 127, 128, 255, chance.randrange(256)))
        (room / "damaged.elf").write_bytes(data[:section.offset] + table + data[section.offset + section.size:])
        found = LineTable(room / "damaged.elf").misread(address)
        right += found is not None and found.path.endswith("library.h")
    return [] if 0 < right < DAMAGES else [f"{right} are right"]


def place_tests(tests):
    if not shutil.which(GCC):
        return tests.left_out("places of included files", GCC)
    other = next(filter(shutil.which, OTHERS), None)
    for label, options, isa in BUILDS:
        path = build(tests.room, "header.elf", options)
        tests.check(f"places, {label}", log_faults(tests, "header.elf", isa))
        if other:
            tests.check(f"places, {label}, as {other}", other_faults(path, other))
            tests.check(f"places, {label}, by {other}", log_faults(tests, "header.elf", isa, ADDR2LINE=other))
    path = build(tests.room, "header.elf", [])
    for name, said in SAYS.items():
        _, out, _ = tests.run(["run", "header.elf", f"--format={name}"])
        tests.check(f"places, as {name}", lacking(out, [said]))
    _, report, _ = tests.run(["run", "header.elf"])
    _, out, _ = tests.run(["lines", "header.elf"], given=report.encode())
    tests.check("places, by lines", lacking(out, [f"make ({MAKE})"]))
    _, out, _ = tests.run(["coverage", "header.elf", "--format=lcov"])
    tests.check("places, by coverage", lacking(out.replace("\n", " "), ["library.h", "DA:6,1"]))
    tests.check("places, damaged", damaged(path, tests.room))
