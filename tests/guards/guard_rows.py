"""The rows of tests/guards/test-guards: files made by hand, with the lines that `replaycheck guards` prints of each, and links."""
from __future__ import annotations

from collections.abc import Callable
from dataclasses import dataclass, field

from board_files import words
from guard_files import ABSOLUTE, CODE, LABEL, OBJECT, OF_THREAD, THREAD_LOCAL, Name, Part, file_of

ENTRY, DATA = 0x10000, 0x11000
JUMP_TO_ITSELF, JUMP_BY_96, NOP, EBREAK = 0x6F, 0x0600006F, 0x13, 0x00100073


@dataclass(frozen=True)
class Row:
    """A file, the arguments after it or all of them, what is printed and said, the status, other files, and what a session of the file
    reports that begins with the lines."""

    label: str
    file: bytes
    words: list[str]
    out: str = ""
    said: list[str] = field(default_factory=list)
    status: int = 0
    texts: dict[str, str] = field(default_factory=dict)
    report: list[str] = field(default_factory=list)


@dataclass(frozen=True)
class Link:
    """A link of the pump by another script: how that is changed, more arguments, whether it is padded first, and what is said with its
    map."""

    label: str
    changed: Callable[[str], str]
    said: list[str]
    words: list[str] = field(default_factory=list)
    is_padded: bool = True


def marks(*ranges: tuple[int, int], kind: str = "noaccess", step: int = 0) -> str:
    return "".join(f"mark {step} 0x{start:x} {size} {kind}\n" for start, size in ranges)


def with_code(code: list[int], parts: list[Part], names: list[Name]) -> bytes:
    """A program of these words, with a function, and sections of data, the first of which has the number 2."""
    return file_of([Part(".text", ENTRY, words(*code), flags=CODE), *parts], [Name("main", ENTRY, 4 * len(code), 2), *names])


def bss(*names: tuple[str, int, int, int], size: int = 0x40, align: int = 4) -> bytes:
    """A program with .bss and symbols there, each with its name, distance, size and kind."""
    return with_code([EBREAK], [Part(".bss", DATA, size=size, align=align)],
                     [Name(name, DATA + at, length, kind, 2) for name, at, length, kind in names])


def data(content: bytes, *names: tuple[str, int, int]) -> bytes:
    """A program with .data and objects there."""
    return with_code([EBREAK], [Part(".data", DATA, content)], [Name(name, DATA + at, size, section=2) for name, at, size in names])


# It reads the byte after `name` and its first one, and writes after `limit`.
OVERRUNS = with_code([0x00011437, 0x00A40603, 0x00040603, 0x00C42A23, EBREAK], [Part(".bss", DATA, size=0x18)],
                     [Name("name", DATA, 10, section=2), Name("limit", DATA + 0x10, 4, section=2)])
# It branches on a word that nothing has set, sets the next one, and branches on that.
NOT_CLEARED = with_code([0x00011437, 0x00042603, 0x00060263, 0x00042223, 0x00442603, 0x00060263, EBREAK],
                        [Part(".noinit", DATA, size=4096)], [Name("kept", DATA, 8, section=2)])
# A table of vectors without a size at 0, the entry, and code to which that jumps.
AT_ZERO = file_of([Part(".text", 0, words(*[NOP] * 8, JUMP_BY_96, *[NOP] * 23, JUMP_TO_ITSELF, *[NOP] * 3), flags=CODE)],
                  [Name("vectors", 0, 0, LABEL), Name("start", 0x20, 8, 2), Name("heap_size", 0x40, 0, LABEL, ABSOLUTE)], entry=0x20)
MAP = """Memory Configuration
LOAD a.o
.text           0x00010000        0x4
 *(.text .text.*)
 .text          0x00010000        0x4 a.o
                0x00010000                main
.a_section_of_data
                0x00011000       0x80
 *(.data .data.*)
 .data.a        0x00011000        0x5 a.o
 *fill*         0x00011005        0x3\x20
 .data.a_long_name
                0x00011008        0x8 a.o
                0x00011020                        . = (. + 0x10)
 *fill*         0x00011010       0x10\x20
                0x00011040                        . = (. + 0x20)
 *fill*         0x00011020       0x20\x20
                0x00011040                        stack_top = .
 .data.b        0x00011040        0x4 a.o
                0x00011080                        . = ALIGN (0x40)
 *fill*         0x00011044       0x3c ff
OUTPUT(a.elf elf32-littleriscv)
"""
OF_ARCHIVE = """LOAD lib/c.a
.data           0x00011000       0x10
 *(.data .data.* COMMON)
 .data.f        0x00011000        0x8 lib/c.a(f.o)
 COMMON         0x00011008        0x8 a.o
OUTPUT(a.elf elf32-littleriscv)
"""
OF_CODE = "SECTIONS { .text : { *(.text .text.*) } }\n"
OF_MAP = with_code([EBREAK], [Part(".a_section_of_data", DATA, b"\xff" * 0x80)],
                   [Name("a", DATA, 5, section=2), Name("long", DATA + 8, 8, section=2), Name("b", DATA + 0x40, 4, section=2)])
FILES = (
    Row("gaps after two objects", OVERRUNS, ["file"], marks((0x1100A, 6), (0x11014, 4)),
        ["2 of 2 objects have a closed byte after them; gaps that are closed: 2", "sections left out: .text (code)"],
        report=["error 1: Invalid read of size 1\n   at 0x00010004: main", "error 1: Invalid write of size 4\n   at 0x0001000c: main",
                "2 errors from 2 contexts"]),
    Row("RAM that nothing clears", NOT_CLEARED, ["file", "--undefined", ".noinit"], marks((DATA, 4096), kind="undefined"),
        report=["error 1: Conditional jump or move depends on uninitialised value(s)\n   at 0x00010008: main", "1 errors from 1 contexts"]),
    Row("code at 0", AT_ZERO, ["file", "--null-page"], marks((0x28, 0x58), (0x84, 0x7C)),
        ["not closed of the first 256 addresses, as the program has something there: 0x0..0x28, 0x80..0x84"],
        report=["state running 0x00000080", "0 errors from 0 contexts"]),
)
NO_FILES = (
    Row("what follows a label isn't known", bss(("a", 0, 5, OBJECT), ("end", 8, 0, LABEL), ("b", 16, 4, OBJECT), size=0x30), ["file"],
        marks((0x11005, 3), (0x11014, 28)), ["2 of 2 objects"]),
    Row("an object without a size is a label", bss(("a", 0, 5, OBJECT), ("table", 8, 0, OBJECT)), ["file"], marks((0x11005, 3))),
    Row("an object within another one", bss(("a", 0, 32, OBJECT), ("part", 4, 8, OBJECT), ("b", 40, 24, OBJECT)), ["file"],
        marks((0x11020, 8)), ["1 of 3 objects"]),
    Row("symbols of a thread's data are no places",
        with_code([EBREAK], [Part(".bss", DATA, size=16), Part(".tbss", DATA + 16, size=8, flags=THREAD_LOCAL)],
                  [Name("a", DATA, 5, section=2), Name("errno", DATA + 8, 4, OF_THREAD, 3)]), ["file"], marks((0x11005, 11)),
        [".tbss (thread-local)"]),
    Row("a section without an object", with_code([EBREAK], [Part(".bss", DATA, size=8), Part(".heap", DATA + 8, size=64)],
                                                 [Name("a", DATA, 5, section=2), Name("heap", DATA + 8, 0, LABEL, 3)]), ["file"],
        marks((0x11005, 3)), [".heap (no object)"]),
    Row("as long as alignment and padding in .bss", bss(("a", 0, 4, OBJECT), size=4 + 35), ["file"], marks((0x11004, 35))),
    Row("longer: it may be a stack", bss(("a", 0, 4, OBJECT), size=4 + 36), ["file"], "",
        ["0 of 1 objects", "not closed, as something without a symbol may be there: 1 in .bss; --map FILE shows"]),
    Row("the same with longer padding", bss(("a", 0, 4, OBJECT), size=4 + 36), ["file", "--bytes", "17"], marks((0x11004, 36))),
    Row("31 zeros in .data", data(bytes(36), ("a", 0, 5)), ["file"], marks((0x11005, 31))),
    Row("32 zeros in .data", data(bytes(37), ("a", 0, 5)), ["file"], "", ["1 in .data"]),
    Row("a constant without a name", data(bytes(7) + b"\1" + bytes(4), ("a", 0, 5), ("b", 8, 4)), ["file"], "", ["1 in .data"]),
    Row("from a step on", bss(("a", 0, 5, OBJECT), ("b", 8, 56, OBJECT)), ["file", "--step", "77"], marks((0x11005, 3), step=77)),
    Row("an object is undefined, and comes first", bss(("a", 0, 5, OBJECT), ("b", 8, 56, OBJECT)), ["file", "--undefined", "b"],
        marks((0x11008, 56), kind="undefined") + marks((0x11005, 3))),
    Row("a range is undefined, a MiB a line", bss(("a", 0, 64, OBJECT)), ["file", "--undefined", "0x80000000..0x80100001"],
        marks((0x80000000, 1 << 20), (0x80100000, 1), kind="undefined")),
    Row("nothing at 0", bss(("a", 0, 64, OBJECT)), ["file", "--null-page"], marks((0, 256))),
    Row("a map: alignment and padding are free, other space isn't", OF_MAP, ["file", "--map", "map"],
        marks((0x11005, 3), (0x11010, 16), (0x11044, 60)), ["3 of 3 objects"], texts={"map": MAP}),
    Row("a map, with other padding", OF_MAP, ["file", "--map", "map", "--bytes=32"], marks((0x11005, 3), (0x11020, 32), (0x11044, 60)),
        ["2 of 3 objects"], texts={"map": MAP}),
    Row("the map of another file", OF_MAP, ["file", "--map", "map"], "",
        ["map: not the map of this file, which has .a_section_of_data at 0x00011000 with 128 bytes"], 2,
        {"map": MAP.replace("0x80\n", "0x84\n")}),
    Row("no map", OF_MAP, ["file", "--map", "file"], "", ["file: not a map of GNU ld: link with -Wl,-Map=FILE"], 2),
    Row("a script of another link", OF_MAP, ["--pad", "script", "--map", "map"], "",
        ["script: none of its statements is in map: is that the map of a link with this script?"], 2,
        {"map": MAP, "script": "SECTIONS { .data : { *(.data.*) } }\n"}),
    Row("a script: KEEP, a comment, and a statement in a line of its own", OF_MAP, ["--pad", "script", "--map", "map"], """\
SECTIONS {
  .text : { *(.text .text.*) }
  /* *(.data .data.*) */
  .a_section_of_data : {
    . = . + 16;
    KEEP(a.o(.data.a)) . = . + 16;
    KEEP(a.o(.data.a_long_name)) . = . + 16;
    KEEP(a.o(.data.b)) . = . + 16;
    KEEP(*(.data
      .data.*)) }
}
""", ["3 sections of data are parted by 16 bytes each, 64 bytes in all"], texts={"map": MAP, "script": """\
SECTIONS {
  .text : { *(.text .text.*) }
  /* *(.data .data.*) */
  .a_section_of_data : {
    KEEP(*(.data
      .data.*)) }
}
"""}),
    Row("a script: common symbols, and a file of an archive", OF_MAP, ["--pad", "script", "--map", "map", "--bytes", "8"],
        "SECTIONS { .data : { . = . + 8; lib/c.a:f.o(.data.f) . = . + 8; *(.data .data.* COMMON) } }\n",
        ["1 sections of data", "not parted: common symbols, of 1 files: compile with -fno-common"],
        texts={"map": OF_ARCHIVE, "script": "SECTIONS { .data : { *(.data .data.* COMMON) } }\n"}),
    Row("a script without one of the statements", OF_MAP, ["--pad", "script", "--map", "map"], OF_CODE,
        ["0 sections of data", "not parted: *(.data .data.*), which isn't in script"], texts={"map": MAP, "script": OF_CODE}),
    Row("no program", b"no program", ["file"], "", ["file: no ELF file: take the file that the linker writes"], 2),
    Row("no symbols", file_of([Part(".text", ENTRY, words(EBREAK), flags=CODE)], []), ["file"], "", ["file: no symbols, which say"], 2),
    Row("an unknown place", OVERRUNS, ["file", "--undefined", ".ram"], "", [".ram: no section, no object and no range A..B of file"], 2),
    Row("a range that ends before it begins", OVERRUNS, ["file", "--undefined", "8..4"], "", ["8..4: no section"], 2),
    Row("more marks than a session takes", bss(*(("a", 8 * i, 4, OBJECT) for i in range(4097)), size=8 * 4097), ["file"], "",
        ["file: 4097 marks, where a session takes 4096"], 2),
    Row("neither a file nor a script", OVERRUNS, [], "", ["FILE is missing, or --pad SCRIPT"], 2),
    Row("a script and a file", OVERRUNS, ["file", "--pad", "file", "--map", "file"], "", ["--pad doesn't go with FILE"], 2),
    Row("a script without a map", OVERRUNS, ["--pad", "file"], "", ["--pad needs --map"], 2),
    Row("a missing map", OVERRUNS, ["file", "--map", "missing"], "", ["missing: No such file or directory"], 2),
)
BSS, STACK = "*(.sbss .sbss.* .bss .bss.* COMMON)", "        . = ALIGN(16);\n        __bss_end = .;"
LINKS = (
    Link("a stack that the script makes in .bss", lambda text: text.replace(STACK, f". = . + 1024; stack_top = .;\n{STACK}"),
         ["8 of 8 objects", "closed: 10\n"]),
    Link("a stack by a symbol, and no padding", lambda text: text.replace(STACK, f"        . += most;\n{STACK}"),
         ["0 of 8 objects", "closed: 1\n"], ["-Wl,--defsym=most=2048"], is_padded=False),
    Link("small data by a statement of its own", lambda text: text.replace(BSS, "*(.sbss .sbss.*) *(.bss .bss.*) *(COMMON)"),
         ["8 of 8 objects"]),
)
