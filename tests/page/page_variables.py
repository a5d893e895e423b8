"""The cases of test-page about variables and sources: each variable's value beside gdb's, damaged debugging information, source files that
are dropped, and both sections of the page."""
import collections
import json
import os
import pathlib
import random
import re
import subprocess
import tempfile

import gdb_values
import page_modules
from page_bench import Wrong, expect, same, words_of
from checkout import TOP

FIRMWARE, OWN = TOP / "examples/firmware", pathlib.Path(__file__).resolve().parent
GCC, GDB = "riscv64-unknown-elf-gcc", "gdb-multiarch"
LOOKED_AT = [0x10000, 0x11000, 0x12000, 0x13000, 0x20000, 0x40000000, 0x7FFFE000, 0x7FFFF000]  # pages of memory, each of PAGE bytes
PAGE = 4096
SOMEWHERE, LOST = "somewhere else", "<optimized out>"
LABELS = {it for path in FIRMWARE.glob("*.c") for it in re.findall(r"^ *(\w+):$", path.read_text(), re.M)}

# ---- values beside gdb's

# What is built, how, the input, and how many of its steps are looked at: 200 in all.
OWN_SOURCE = OWN / "page_variables.c"
BUILDS = [
    ("not optimised", OWN_SOURCE, "-O0 -g", None, 30), ("for debugging", OWN_SOURCE, "-Og -g", None, 30),
    ("optimised", OWN_SOURCE, "-O2 -g", None, 30), ("version 2", OWN_SOURCE, "-O0 -gdwarf-2", None, 15),
    ("version 3", OWN_SOURCE, "-Og -gdwarf-3", None, 15), ("version 4, optimised", OWN_SOURCE, "-O2 -gdwarf-4", None, 15),
    ("the station, not optimised", FIRMWARE / "station.c", "-O0 -g", "station.input", 15),
    ("the station, optimised", FIRMWARE / "station.c", "-O2 -g", "station.input", 15),
    ("the station as it is", FIRMWARE / "station.elf", None, "station.input", 20),
    ("kinds of errors", FIRMWARE / "kinds.elf", None, "kinds.input", 15),
]
FLAGS = ["-march=rv32im", "-mabi=ilp32", "--specs=picolibc.specs", "-Wall", "-Wextra", "-nostartfiles", "-nostdlib"]
GDB_SETTINGS = ["set width 0", "set height 0", "set print elements 24", "set print repeats unlimited", "set print symbol off",
                "set print entry-values no"]
# What gdb says at each step: of the innermost frame, and of those that are inlined in it or it in them, up to a frame of its own.
GDB_SCRIPT = """
import gdb, json
found = []
for step, names in json.load(open(ASKED)):
    gdb.execute(f"monitor goto {step}", to_string=True)
    for it in ("register-cache", "dcache"):
        gdb.execute(f"maintenance flush {it}", to_string=True)
    frame, texts, values = gdb.newest_frame(), [], {}
    while True:
        frame.select()
        texts += [gdb.execute(f"info {it}", to_string=True) for it in ("args", "locals")]
        for name in names:
            try:
                values.setdefault(name, gdb.execute(f"output {name}", to_string=True))
            except gdb.error:
                pass
        if frame.type() != gdb.INLINE_FRAME:
            break
        frame = frame.older()
    found.append([frame.name(), int(gdb.parse_and_eval("$pc")), texts, values])
json.dump(found, open(FOUND, "w"))
"""
# The variables at each step, by the page's modules, over facts of the program.
SCRIPT = """
import { readFileSync } from 'node:fs';
import { Elf } from './debuginfo/elf.js';
import { parseMemory, parseRegisters } from './engine/looks.js';
import { Variables } from './debuginfo/variables.js';
const { elf, facts, page } = JSON.parse(readFileSync(ASKED));
const all = new Variables(new Elf(new Uint8Array(readFileSync(elf))));
const told = [];
for (const { registers, memory } of facts) {
  const seen = parseRegisters(registers);
  const pages = new Map(memory.map(([at, text]) => [at, parseMemory(text)]));
  const byte = (at) => pages.get(at - at % page)?.[at % page] ?? { value: 0, undef: null };
  const read = async (address, length) => {
    const bytes = Array.from({ length }, (_, i) => byte(address + i));
    return { bytes: bytes.map((it) => it.value), undefined: bytes.map((it) => it.undef) };
  };
  told.push({ pc: seen.pc, rows: seen.pc === null ? [] : await all.at(seen.pc, seen.registers, read) });
}
console.log(JSON.stringify(told));
"""


def built(folder, label, source, flags):
    """A program from its source, or as it is."""
    if flags is None:
        return source
    made = folder / f"{re.sub('[^a-z0-9]+', '-', label)}.elf"
    others = [FIRMWARE / it for it in ("start.S", "system.c", "memory.c", "heap_by_name.c")]
    subprocess.run([GCC, *FLAGS, *flags.split(), "-T", FIRMWARE / "firmware.ld", *others, source, "-lgcc", "-o", made], check=True)
    return made


def looked(program, words, lines):
    """The replies to lines of `look`, each with all its rows."""
    text = "".join(f"{line}\n" for line in lines)
    ran = subprocess.run([program, "look", *words], input=text, capture_output=True, text=True, check=True)
    return re.split(r"^(?=(?:ok|refused|state|bytes)\b)", ran.stdout, flags=re.M)[1:]


def facts_of(program, words, steps, edits=()):
    """Of each step the replies about registers, and about pages of memory."""
    asked = ["look registers", *(f"look memory {it:#x} {PAGE}" for it in LOOKED_AT)]
    lines = [*edits, *(line for step in steps for line in (f"goto {step}", *asked))]
    replies = looked(program, words, lines)[len(edits):]
    each = len(asked) + 1
    return [{"registers": replies[at + 1], "memory": list(zip(LOOKED_AT, replies[at + 2:at + each]))}
            for at in range(0, len(replies), each)]


def length_of(program, words):
    """How many steps a run has, of which 100,000 are looked at."""
    low, high = 0, 100_000
    while low < high:
        middle = (low + high) // 2
        is_running = looked(program, words, [f"goto {middle}", "look registers"])[-1].startswith("state running")
        low, high = (middle + 1, high) if is_running else (low, middle)
    return low


def in_node(elf, facts):
    """The variables in scope at each step."""
    with tempfile.NamedTemporaryFile("w", suffix=".json") as asked:
        json.dump({"elf": str(elf), "facts": facts, "page": PAGE}, asked)
        asked.flush()
        return page_modules.answered(f"const ASKED = {json.dumps(asked.name)};\n{SCRIPT}")


def in_gdb(folder, program, words, asked):
    """What gdb says at each step: of which frame, where it is, and the variables there."""
    files = {name: folder / f"{name.lower()}.json" for name in ("ASKED", "FOUND")}
    files["ASKED"].write_text(json.dumps(asked))
    script = folder / "asks.py"
    script.write_text("".join(f"{name} = {str(path)!r}\n" for name, path in files.items()) + GDB_SCRIPT)
    tool = [str(TOP / "cli/bin/replaycheck-gdb"), *map(str, words)]
    typed = [*GDB_SETTINGS, f"target remote | {' '.join(tool)}", f"source {script}"]
    ran = subprocess.run([GDB, "-nx", "-batch", *(word for line in typed for word in ("-ex", line)), words[0]], capture_output=True,
                         text=True, env={**os.environ, "REPLAYCHECK": str(program)})
    if not files["FOUND"].exists():
        raise Wrong(f"gdb: {ran.stdout[-600:]}{ran.stderr[-600:]}")
    return json.loads(files["FOUND"].read_text())


def gdb_rows(texts):
    """The names and values of texts of `info args` and `info locals`."""
    return [tuple(line.split(" = ", 1)) for text in texts for line in text.splitlines() if " = " in line]


def compare(label, rows, frame, counts):
    """Compares the variables of one step with gdb's: of those of one name, the innermost comes first. Besides, gdb lists labels, which are
    nowhere."""
    name, pc, texts, values = frame
    left, what = gdb_rows(texts), f"{label}: {name} at {pc:#x}"
    for row in rows:
        text, of_name = row["text"], [it for it in left if it[0] == row["name"]]
        found = [it for it in of_name[:1] if text == SOMEWHERE or gdb_values.agree(text, it[1])]
        # gdb prints constants that are given as bytes, and lists none of them.
        is_constant = not of_name and gdb_values.agree(text, values.get(row["name"], ""))
        expect(found or is_constant, f"{what}: {row['name']} is {text!r}, and gdb has {of_name or values.get(row['name'])}")
        counts[text if text in (SOMEWHERE, LOST) else "value"] += 1
        for it in found:
            left.remove(it)
    more = [it for it in left if it[1] != LOST or it[0] not in LABELS and not name.startswith("__")]  # not of the compiler's library
    expect(not more, f"{what}: gdb has {more} besides")


def beside_gdb(program):
    """Each variable in scope has the value that gdb tells, at 200 steps of ten programs."""
    for label, ours, gdb, is_so in gdb_values.AGREEING:
        same(f"the comparison by itself: {label}", gdb_values.agree(ours, gdb), is_so)
    chance, counts, steps_seen = random.Random(11), collections.Counter(), 0
    with tempfile.TemporaryDirectory(prefix="replaycheck-variables-") as name:
        folder = pathlib.Path(name)
        for label, source, flags, given, count in BUILDS:
            elf = built(folder, label, source, flags)
            words = [str(elf), *(["--input", str(FIRMWARE / given)] if given else [])]
            steps = sorted(chance.sample(range(30, length_of(program, words)), count))
            told = in_node(elf, facts_of(program, words, steps))
            asked = [[step, [row["name"] for row in it["rows"]]] for step, it in zip(steps, told)]
            for step, it, frame in zip(steps, told, in_gdb(folder, program, words, asked)):
                same(f"{label}: where step {step} is", it["pc"], frame[1])
                compare(f"{label}, step {step}", it["rows"], frame, counts)
                steps_seen += 1
    same("steps", steps_seen, sum(it[-1] for it in BUILDS))
    expect(counts["value"] > 1000 and counts[SOMEWHERE] * 10 < counts["value"], f"of the variables {dict(counts)} were compared")


# ---- undefined bits

STATION = words_of("station")
# Edits, a step, a variable, its text, whether a bit of it is undefined, and its address.
UNDEFINED = [
    ("a unit that is written", [], 684, "unit", "99 'c'", False, 0x7FFFFFC7),
    ("a unit that isn't", ["input 37 5"], 676, "unit", r"0 '\000'", True, 0x7FFFFFC7),
    ("that unit in a register", ["input 37 5"], 680, "unit", r"0 '\000'", True, None),
    ("a text before it is written", ["input 37 5"], 680, "text", None, True, 0x7FFFFF90),
    ("a structure that is written", [], 684, "station", None, False, 0x7FFFFFC8),
    ("a function that the unit before seems to have, too", [], 54, "count", "256", False, None),
]


def debuginfo_tests(_):
    """The tests that are beside the modules which read debugging information."""
    same("tests of page/debuginfo", page_modules.debuginfo_faults(), [])


def undefined_bits(program):
    """Whether a value has an undefined bit is what the program says of its bytes, and where it is."""
    for label, edits, step, name, text, is_undefined, address in UNDEFINED:
        [told] = in_node(STATION[0], facts_of(program, STATION, [step], edits))
        [row] = [it for it in told["rows"] if it["name"] == name]
        same(label, [row["undefined"], row["address"]], [is_undefined, address])
        expect(text in (None, row["text"]), f"{label}: it is {row['text']!r}")
        parts = "".join(it["text"] for it in row["parts"])
        same(f"{label}: its parts", [parts, any(it["how"] for it in row["parts"])], [row["text"], is_undefined])


# ---- damaged files

DAMAGED = """
import { readFileSync } from 'node:fs';
import { Elf } from './debuginfo/elf.js';
import { Lines } from './debuginfo/lines.js';
import { Variables } from './debuginfo/variables.js';
const content = new Uint8Array(readFileSync(ELF));
const sections = new Elf(content).sections.filter((it) => it.name.startsWith('.debug'));
let seed = 7;
const chance = (most) => (seed = (Math.imul(seed, 1103515245) + 12345) >>> 0, (seed >>> 8) % most);
const registers = Array.from({ length: 32 }, (_, i) => ({ value: 0x7fffff00 + 4 * i, undef: 0 }));
const read = async (address, length) => ({ bytes: Array.from({ length }, (_, i) => address + i & 255),
  undefined: new Array(length).fill(0) });
const told = { longest: 0, rows: 0 };
for (let turn = 0; turn < TURNS; turn++) {
  const bytes = content.slice();
  for (let i = turn ? chance(12) : -1; i >= 0; i--) {
    const { begin, size } = sections[chance(sections.length)];
    bytes[begin + chance(size)] = chance(3) ? chance(256) : 255;
  }
  const begun = performance.now(), elf = new Elf(bytes), all = new Variables(elf), lines = new Lines(elf);
  for (const { address, size } of elf.functions) {
    const at = address + (size >> 3 << 2);
    told.rows += (await all.at(at, registers, read)).length + (await all.globals(at, registers, read)).length;
    lines.placeAt(at);
  }
  told.longest = Math.max(told.longest, performance.now() - begun);
}
console.log(JSON.stringify(told));
"""
TURNS, MOST_TIME = 200, 2000  # milliseconds for one file


def damaged_information(_):
    """Debugging information with wrong bytes is read as far as it goes, in time."""
    told = page_modules.answered(f"const ELF = {json.dumps(STATION[0])}, TURNS = {TURNS};\n{DAMAGED}")
    expect(told["rows"] > 20 * TURNS, f"{told['rows']} variables alone were found")
    expect(told["longest"] < MOST_TIME, f"one file took {told['longest']} ms")


# Types and lists that name themselves or one another again and again, by the bytes of .debug_info behind its head and of .debug_abbrev.
ENDLESS = """
import { Elf } from './debuginfo/elf.js';
import { Variables } from './debuginfo/variables.js';
const told = {};
for (const [label, abbreviations, entries] of ROWS) {
  const unit = [4, 0, 0, 0, 0, 0, 4, ...entries], info = [unit.length & 255, unit.length >> 8, unit.length >> 16, 0, ...unit];
  const elf = new Elf(new Uint8Array(0)), bytes = Uint8Array.from([...info, ...abbreviations, ...new Array(64).fill(0)]);
  elf.bytes = bytes;
  elf.view = new DataView(bytes.buffer);
  elf.sections = [{ name: '.debug_info', begin: 0, size: info.length, address: 0 },
    { name: '.debug_abbrev', begin: info.length, size: abbreviations.length, address: 0 }];
  const begun = performance.now(), registers = Array.from({ length: 32 }, () => ({ value: 4096, undef: 0 }));
  const read = async (address, length) => ({ bytes: new Array(length).fill(1), undefined: new Array(length).fill(0) });
  const rows = await new Variables(elf).at(0x10000, registers, read);
  told[label] = [[rows[0].name, rows[0].text], performance.now() - begun];
}
console.log(JSON.stringify(told));
"""
# The bytes of a unit with addresses, of a function in it, and of a variable `v` at address 0x1000, whose type comes next, at offset 43.
UNIT = [1, 0x11, 1, 0x11, 1, 0x12, 6, 0, 0, 2, 0x2E, 1, 0x11, 1, 0x12, 6, 0, 0, 3, 0x34, 0, 3, 8, 2, 0x18, 0x49, 0x13, 0, 0]
INSIDE = [1, 0, 0, 1, 0, 0, 1, 0, 0, 2, 0, 0, 1, 0, 0, 1, 0, 0, 3, ord("v"), 0, 5, 3, 0, 16, 0, 0, 43, 0, 0, 0, 0]
# Types, what the text of `v` begins with, and the bytes of their abbreviations and entries.
TYPES = [
    ("a typedef of itself", "void", [4, 0x16, 0, 0x49, 0x13, 0, 0], [4, 43, 0, 0, 0]),
    ("an array of itself", "{...}", [4, 0x01, 1, 0x49, 0x13, 0, 0, 5, 0x21, 0, 0x37, 0x0B, 0, 0], [4, 43, 0, 0, 0, 5, 200, 0]),
    ("a structure with itself", "{{...}, {", [4, 0x13, 1, 0x0B, 0x0B, 0, 0, 5, 0x0D, 0, 0x49, 0x13, 0, 0],
     [4, 8, *[5, 43, 0, 0, 0] * 5000, 0]),
    ("a function of functions", "{...}", [4, 0x15, 1, 0x49, 0x13, 0, 0, 5, 0x05, 0, 0x49, 0x13, 0, 0],
     [4, 43, 0, 0, 0, *[5, 43, 0, 0, 0] * 5000, 0]),
    ("a reference to itself", "@0x1010101: @", [4, 0x10, 0, 0x49, 0x13, 0, 0], [4, 43, 0, 0, 0]),
    ("a class that is its own base", "{<?> = {<?> = ", [4, 0x13, 1, 0x0B, 0x0B, 0, 0, 5, 0x1C, 0, 0x49, 0x13, 0, 0],
     [4, 8, *[5, 43, 0, 0, 0] * 40, 0]),
    ("a pointer to itself", "0x1010101", [4, 0x0F, 0, 0x49, 0x13, 0, 0], [4, 43, 0, 0, 0]),
    ("fields without an end", "{}", [4, 0x13, 1, *[0x3F, 0x19] * 5000, 0, 0], [4] * 20000),
]


def endless_types(_):
    """Types that have themselves in them, and entries without an end, don't hold up the page."""
    rows = [[label, [*UNIT, *abbreviations, 0], [*INSIDE, *entries, 0]] for label, _, abbreviations, entries in TYPES]
    told = page_modules.answered(f"const ROWS = {json.dumps(rows)};\n{ENDLESS}")
    for label, begin, *_ in TYPES:
        [name, text], spent = told[label]
        expect(name == "v" and text.startswith(begin), f"{label}: {name} is {text[:200]!r}")
        expect(spent < MOST_TIME, f"{label}: it took {spent} ms")
