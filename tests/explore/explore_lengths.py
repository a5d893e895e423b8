#!/usr/bin/env python3
"""Sweeps of instructions of 16 and 32 bits, for test-explore: tables that were never made, of a program whose instructions are
known here without a look at its file. As a program it is the `replaycheck sweep` of that program:

usage: tests/explore/explore_lengths.py sweep OPTION.. FILE"""
import hashlib
import os
import random
import re
import shlex
import stat
import sys

sys.dont_write_bytecode = True
sys.path[:0] = (os.path.realpath(f"{__file__}/../../../{it}") for it in ("tests/support", "build", "cli/python"))
from explore_cases import ERROR, SUM, changed  # noqa: E402
from guest_files import ENTRY, elf  # noqa: E402

ISA = "--isa=rv32imc"
C_NOP, NOP = 0x0001, 0x00000013
WORD_LIST = (NOP, 0x00100073)
OUTCOMES = ["exited 0", "exited 1", f"exited 0\n{ERROR}", "running"]
COUNT, SEED = 23, 5
FUNCTION = 2  # the number of the instruction at which the function `part` begins


class Short:
    """A program of instructions of either length, the last of which is cut: of its 32 bits, 16 are loaded. `places` are the others, each
    its address, its length and its value. One of each length does nothing."""

    def __init__(self, values="flips", seed=SEED):
        chance = random.Random(seed)
        self.places, self.content, self.values = [], b"", values
        for number in range(COUNT):
            length = chance.choice((2, 4))
            value = chance.getrandbits(8 * length) | 3 if length == 4 else chance.getrandbits(14) << 2 | chance.randrange(3)
            if number in (4, 7):
                length, value = (2, C_NOP) if number == 4 else (4, NOP)
            self.places.append((ENTRY + len(self.content), length, value))
            self.content += value.to_bytes(length, "little")
        self.content += b"\xff\xff"
        begin = self.places[FUNCTION][0]
        self.file = elf([], symbols=[("part", begin, self.places[-1][0] - begin)], data=self.content)
        self.chance = random.Random(seed + 1)
        self.rows = [[(self.line(at, length, value), self.chance.randrange(len(OUTCOMES)))
                      for value in self.edits(length, was) if value != was] for at, length, was in self.places]

    def edits(self, length, was):
        if self.values == "flips":
            return [was ^ 1 << bit for bit in range(8 * length)]
        if self.values == "skip":
            return [C_NOP if length == 2 else NOP]
        return WORD_LIST if length == 4 else ()

    @staticmethod
    def line(at, length, value):
        return f"patch 0x{at:08x} 0x{value:08x}" if length == 4 else f"patch16 0x{at:08x} 0x{value:04x}"

    def part(self, index=1, count=1, first=0, last=COUNT - 1, step=100):
        """The table of a part, of the instructions from one to another one."""
        ends = self.places[first][0], self.places[last][0] + (2 if last == COUNT - 1 else 0)
        told = self.values if isinstance(self.values, str) else ",".join(f"0x{it:08x}" for it in self.values)
        head = ["sweep 2", "isa rv32imc", f"program {len(self.file)} {hashlib.sha256(self.file).hexdigest()}", f"input 0 {SUM}",
                f"supp 0 {SUM}", "words 0x%08x..0x%08x " % ends + told, f"step {step}", "output no", f"part {index}/{count}"]
        rows = self.rows[first:last + 1]
        rows = rows[len(rows) * (index - 1) // count:len(rows) * index // count]
        numbers, lines, tallies = {0: 0}, [*head, "outcome 0", OUTCOMES[0], "unedited 0"], [0]
        edits = [it for place in rows for it in place]
        for edit, outcome in edits:
            if outcome not in numbers:
                numbers[outcome] = len(numbers)
                lines += [f"outcome {numbers[outcome]}", OUTCOMES[outcome]]
                tallies.append(0)
            tallies[numbers[outcome]] += 1
            lines.append(f"{edit} {numbers[outcome]}")
        lines += [f"tally {number} {tally}" for number, tally in enumerate(tallies)] + [f"end {len(edits)} {len(tallies)} {len(edits)}"]
        return "".join(f"{line}\n" for line in lines).encode()


def faked(words):
    """Writes the table that is asked for."""
    options = dict(it[2:].split("=") for it in words if it.startswith("--"))
    first, last = (int(it, 16) for it in options["words"].split(".."))
    values = options["words-values"]
    made = Short(values if values.isalpha() else tuple(int(it, 16) for it in values.split(",")))
    inside = [number for number, (at, *_) in enumerate(made.places) if first <= at <= last]
    index, count = map(int, options["part"].split("/"))
    table = made.part(index, count, inside[0], inside[-1], int(options["step"]))
    head = "words 0x%08x..0x%08x " % (first, last)
    sys.stdout.buffer.write(b"".join(head.encode() + it.split(b" ")[2] + b"\n" if it.startswith(b"words ") else it + b"\n"
                                     for it in table.splitlines()))


# ---- tests


VALUES = ("flips", "skip", WORD_LIST)


def merged(tests, tables, words=()):
    """What `explore --table=-` says of tables, in reverse order."""
    names = [tests.file(f"lengths-{index}", table).name for index, table in enumerate(tables)]
    status, out, err = tests.run([*words, "--table=-", "--from", *reversed(names)])
    return out.encode() if status < 2 else err


def test_parts(tests):
    """Parts are the whole, with the program's file and without it."""
    for values in VALUES:
        made = Short(values)
        tests.file("short.elf", made.file)
        for count in (1, 7, 40):
            tables = [made.part(index, count) for index in range(1, count + 1)]
            for label, words in (("with the file", ["short.elf", ISA]), ("without the file", [])):
                came = merged(tests, tables, words)
                tests.check(f"lengths: {values}, {count} parts {label}", "" if came == made.part() else came[-300:])
    made = Short()
    cuts = [made.part(1, 2), made.part(3, 4), made.part(7, 8), made.part(8, 8)]
    tests.check("lengths: parts of several cuts", merged(tests, cuts, ["short.elf", ISA]) != made.part())
    came = merged(tests, cuts)
    tests.check("lengths: parts of several cuts without the file", "" if "parts of cuts into 2 and 4 and 8: " in str(came) else came)
    came = merged(tests, [made.part(1, 3), made.part(3, 3)])
    tests.check("lengths: a part is missing", "" if "missing: part 2/3" in str(came) else came)
    came = merged(tests, [made.part(1, 3), made.part(3, 3)], ["short.elf", ISA])
    tests.check("lengths: a part is missing, with the file", "" if "missing: part 2/3" in str(came) else came)


def edits_of(made, number):
    """The rows of an instruction, as bytes with an outcome each."""
    return [edit.encode() for edit, _ in made.rows[number]]


def without(table, edits):
    return b"\n".join(it for it in table.split(b"\n") if it.rpartition(b" ")[0] not in edits)


def wrong_tables():
    """Label, values, what becomes of the table, whether it is refused without the file too, and what is said with it."""
    flips, words = Short(), Short(WORD_LIST)
    half = next(i for i, it in enumerate(flips.places) if it[1] == 2 and i > 8)
    word = next(i for i, it in enumerate(flips.places) if it[1] == 4 and i > 8)
    at, address = flips.places[word][0], f"0x{flips.places[word][0]:08x}"
    begin, _, was = flips.places[half]
    first, missing = edits_of(flips, half)[0], f"no edit of the instruction at 0x{flips.places[half][0]:08x}"
    whole = f"those of the instruction at {address}"
    yield "a bit that is missing", "flips", lambda it: without(it, edits_of(flips, word)[5:6]), True, whole
    yield "16 bits of 32", "flips", lambda it: without(it, edits_of(flips, word)[16:]), True, whole
    yield "two bits at once", "flips", changed(first, b"patch16 0x%08x 0x%04x" % (begin, was ^ 3)), True, "those of the instruction at"
    yield "an instruction without edits", "flips", lambda it: without(it, edits_of(flips, half)), False, missing
    yield "the last one without edits", "flips", lambda it: without(it, edits_of(flips, COUNT - 1)), False, "no edit of the instruction at"
    yield "an instruction that isn't left out", "skip", lambda it: without(it, edits_of(Short("skip"), half)), False, missing
    yield ("the second half of an instruction", "flips",
           lambda it: it.replace(b"patch " + address.encode(), b"patch 0x%08x" % (at + 2)), False,
           "the program has no instruction of 32 bits there")
    yield ("a half in the place of a word", "skip",
           lambda it: it.replace(edits_of(Short("skip"), word)[0], b"patch16 %b 0x0001" % address.encode()), False,
           "the program has no instruction of 16 bits there")
    yield ("a word in the place of a half", "skip", lambda it: it.replace(edits_of(Short("skip"), half)[0], b"patch 0x%08x 0x00000013" % (
        flips.places[half][0])), False, "the program has no instruction of 32 bits there")
    yield ("a half of a list of words", WORD_LIST,
           lambda it: it.replace(edits_of(words, word)[0], b"patch16 0x%08x 0x0013" % flips.places[half][0]), True, "")
    yield ("an odd address", "flips", lambda it: it.replace(b"patch " + address.encode(), b"patch 0x%08x" % (at + 1)), True,
           "no instruction of 32 bits there")
    yield ("another instruction that does nothing", "skip", lambda it: it.replace(b" 0x0001 ", b" 0x0013 ", 1), True,
           "aren't all that values skip are")
    yield "a half with eight digits", "skip", lambda it: it.replace(b" 0x0001 ", b" 0x00000001 ", 1), True, "comes here"
    yield "a word with four digits", "skip", lambda it: it.replace(b" 0x00000013 ", b" 0x0013 ", 1), True, "comes here"


def test_wrong(tests):
    tests.file("short.elf", Short().file)
    rows = []
    for index, (label, values, change, is_bare, text) in enumerate(wrong_tables()):
        good = Short(values).part()
        name = tests.file(f"wrong-lengths-{index}", change(good)).name
        tests.check(f"lengths: {label} is a change", change(good) == good)
        rows.append((f"wrong table of lengths: {label}", ["short.elf", ISA, "--from", name], text))
        if is_bare:
            rows.append((f"wrong table of lengths: {label}, without the file", ["--from", name], ""))
    usual = Short("skip").part().replace(b"sweep 2\nisa rv32imc\n", b"sweep 1\n")
    tests.file("usual-lengths", usual)
    rows.append(("wrong table of lengths: halves for rv32im", ["--from", "usual-lengths"], "outside of the sweep"))
    tests.refuse_all(rows)


def fake(tests):
    """The path of a program that sweeps the program of these tables, and nothing else."""
    path = tests.room / "fake"
    path.write_text(f"#!/bin/sh\nexec {shlex.quote(sys.executable)} {shlex.quote(os.path.realpath(__file__))} \"$@\"\n")
    path.chmod(path.stat().st_mode | stat.S_IXUSR)
    return {"REPLAYCHECK": str(path)}


def test_made(tests):
    """A sweep of a function: its instructions by their lengths, whatever the number of parts; what is said of it, and drawn."""
    made = Short("skip")
    tests.file("short.elf", made.file)
    begin, end = made.places[FUNCTION][0], made.places[-1][0] - 2
    words, few = ["short.elf", ISA, "--code=part", "--step=100"], "--parts=2"
    told = f"words 0x{begin:08x}..0x{end:08x}, values "
    for values, made in (("skip", made), ("flips", Short())):
        edits = sum(map(len, made.rows[FUNCTION:-1]))
        for parts in (1, 5):
            status, out, err = tests.run([*words, f"--words-values={values}", f"--parts={parts}"], **fake(tests))
            head = f"short.elf for rv32imc, part: {edits} edits, {told}{values}, step 100\n"
            is_well = status == 1 and out.startswith(head) and not err
            tests.check(f"lengths: --code, {values}, {parts} parts", "" if is_well else (status, out, err))
    made = Short("skip")
    goal = tests.run([*words, few, "--goal=exited 1"], **fake(tests))[1]
    lines = [edit for place in made.rows[FUNCTION:-1] for edit, outcome in place if outcome == 1]
    tests.check("lengths: --goal", "" if goal.splitlines()[:-1][:len(lines)] == lines and any("patch16" in it for it in lines) else goal)
    kept = [*words, "--parts=4", "--keep=kept-lengths"]
    whole = tests.run(kept, **fake(tests))
    tests.check("lengths: --keep", tests.run(kept, REPLAYCHECK=tests.wrapper("exit 4")) != whole)
    status, out, err = tests.run([*words, "--sample=3", "--seed=2", "--svg=-"], **fake(tests))
    tests.check("lengths: --sample", "" if "a sample: 3 of " in out and status < 2 else (status, out, err))
    for name, size in (("patch16", 2), ("patch", 4)):
        at, _, was = next(it for it in made.places[FUNCTION:] if it[1] == size)
        out = tests.run([*words[:2], f"--words=0x{at:x}..0x{at:x}", few, "--step=100", "--words-values=flips"], **fake(tests))[1]
        firsts = re.findall(r"^ +\d+  (\w+) 0x(\w+) \w+ +[1-9]: .*\n +was 0x(\w+)", out, re.M)
        tests.check(f"lengths: what {name} replaces", "" if set(firsts) == {(name, f"{at:08x}", f"{was:0{2 * size}x}")} else (firsts, out))


def test_drawn(tests):
    """The picture has a column for each instruction; without the file one for each place where an instruction may begin."""
    made = Short()
    tests.file("short.elf", made.file)
    name = tests.file("lengths-drawn", made.part()).name
    for label, words in (("with the file", ["short.elf", ISA]), ("without the file", [])):
        status, out, err = tests.run([*words, "--svg=-", "--from", name])
        found = set(re.findall(r'<rect class="[^"]*" x="([^"]*)"[^>]*><title>', out))
        is_well = status < 2 and len(found) == COUNT and out.count("<title>patch16 0x") > 9
        tests.check(f"lengths: a picture {label}", "" if is_well else (status, len(found), out[:300], err))


def test_lengths(tests):
    for test in (test_parts, test_wrong, test_made, test_drawn):
        test(tests)


if __name__ == "__main__":
    faked(sys.argv[2:])
