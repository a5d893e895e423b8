#!/usr/bin/env python3
"""Writes the table of `replaycheck sweep` by text sessions alone: a line for an edit, its report, and the line that takes
it back. It shares no code with the program's own sweep, and is what that is compared with.

usage: tests/support/sweep_by_sessions.py PROGRAM FILE [--input F] [--supp F] [--isa NAME] [--heap-region BEGIN]
       [--stack-region A..B] [--step N] [--bytes A..B] [--values all|flips|edges|LIST] [--words A..B]
       [--words-values skip|flips|LIST] [--with-output] [--sides] [--part I/N]

In: a built replaycheck, and the options of its `sweep`.

Out: the table. How many steps the edited runs made is told of bytes, by what the reports of the unedited run say of the
input; where words are edited it is `-`. With `--sides`, sessions of `replaycheck look` say what each run has executed.

Exit status: 0 the table is whole; 1 a file can't be read; 2 the command line; 3 a file, a range of bytes or of words is
refused; 4 the sessions answered otherwise than they should."""
import argparse
import hashlib
import os
import re
import struct
import subprocess
import sys
import tempfile

sys.dont_write_bytecode = True
LAST_STEP, MOST_PARTS, AT_ONCE = 4194304, 1000000, 20000
USUAL_HEAP, USUAL_STACK = 0x40000000, (0x7F000000, 0x80000000)
NUMBER = r"0[xX][0-9a-fA-F]{1,8}|[0-9]{1,10}"
EDGES = (0, 1, 0x7F, 0x80, 0xFF)
HALF, WORD = 2, 4  # bytes of an instruction
NO_OP = {HALF: 0x0001, WORD: 0x00000013}
MOST_SIDES = 4194304  # bytes of which a table says what was executed
MOST_LOOKED, LINE_PLACES = 4096, 64
JUMP = "Jump to the invalid address stated on the next line"


class Bad(Exception):
    """What ends the work: a status, and a line for standard error."""

    def __init__(self, status, text):
        super().__init__(text)
        self.status = status


# ---- the command line


def no_such(option, text):
    raise Bad(2, f"replaycheck: no range, list or part: {option} {text}")


def range_of(option, text, may_be_open):
    """The ends of A..B, of A, or of A.. where that may be; the last one is None then."""
    found = re.fullmatch(rf"({NUMBER})(?:(\.\.)({NUMBER})?)?", text)
    if not found or found[2] and not found[3] and not may_be_open:
        no_such(option, text)
    first = int(found[1], 0 if found[1][:2] in ("0x", "0X") else 10)
    last = first if not found[2] else None if not found[3] else int(found[3], 0 if found[3][:2] in ("0x", "0X") else 10)
    if first >= 1 << 32 or last is not None and not first <= last < 1 << 32:
        no_such(option, text)
    return first, last


def list_of(option, text, names, limit):
    """A name, or a list of numbers of which none stands twice."""
    if text in names:
        return text
    found = text.split(",")
    if not all(re.fullmatch(NUMBER, it) for it in found):
        no_such(option, text)
    numbers = [int(it, 0 if it[:2] in ("0x", "0X") else 10) for it in found]
    if len(set(numbers)) != len(numbers) or max(numbers) >= limit:
        no_such(option, text)
    return numbers


def part_of(text):
    found = re.fullmatch(r"([0-9]{1,7})/([0-9]{1,7})", text)
    if not found or not 1 <= int(found[1]) <= int(found[2]) <= MOST_PARTS:
        no_such("--part", text)
    return int(found[1]), int(found[2])


def options_of(words):
    reader = argparse.ArgumentParser(usage=__doc__.partition("usage: ")[2].partition("\n\n")[0], allow_abbrev=False)
    reader.add_argument("program")
    reader.add_argument("file")
    for name in ("--input", "--supp", "--bytes", "--words"):
        reader.add_argument(name)
    reader.add_argument("--isa", default="rv32im")
    reader.add_argument("--heap-region", type=lambda it: int(it, 0), default=USUAL_HEAP)
    reader.add_argument("--stack-region", type=lambda it: tuple(int(each, 0) for each in it.split("..")), default=USUAL_STACK)
    reader.add_argument("--step", type=lambda it: int(it, 0), default=1048576)
    reader.add_argument("--values", default="all")
    reader.add_argument("--words-values", default="skip")
    reader.add_argument("--part", default="1/1")
    reader.add_argument("--with-output", action="store_true")
    reader.add_argument("--sides", action="store_true")
    options = reader.parse_args(words)
    if options.bytes is None and options.words is None:
        options.bytes = "0.."
    options.bytes = options.bytes and range_of("--bytes", options.bytes, True)
    options.words = options.words and range_of("--words", options.words, False)
    options.told = {"bytes": options.values, "words": options.words_values}
    options.values = list_of("--values", options.values, ("all", "flips", "edges"), 256)
    options.words_values = list_of("--words-values", options.words_values, ("skip", "flips"), 1 << 32)
    options.part = part_of(options.part)
    if not 0 <= options.step <= LAST_STEP:
        raise Bad(2, f"replaycheck: no step: {options.step}")
    return options


def has_regions(options):
    """Whether heap or stack are elsewhere."""
    return (options.heap_region, options.stack_region) != (USUAL_HEAP, USUAL_STACK)


# ---- sessions


def reply_to(options, room, lines, command="session"):
    """What a session says to lines."""
    words = [options.program, command, f"{room}/program", f"--isa={options.isa}"]
    if has_regions(options):
        words += [f"--heap-region={options.heap_region}", "--stack-region={}..{}".format(*options.stack_region)]
    words += ["--input", f"{room}/input"] if options.input is not None else []
    words += ["--supp", f"{room}/supp"] if options.supp is not None else []
    done = subprocess.run(words, input="".join(f"{line}\n" for line in lines).encode(), capture_output=True)
    if done.returncode:
        raise Bad(done.returncode, done.stderr.decode("utf-8", "replace").rstrip("\n"))
    return done.stdout.decode("utf-8", "surrogateescape").splitlines()


def reports_to(options, room, lines):
    """The reports of a session, which refuses no line."""
    found, now = [], None
    for line in reply_to(options, room, lines):
        if line.startswith("step "):
            now = []
            found.append(now)
        elif now is None and line != "ok":
            raise Bad(4, f"a session has answered {line!r}")
        if now is not None:
            now.append(line)
        if line.startswith("ERROR SUMMARY: "):
            now = None
    if len(found) != lines.count("report"):
        raise Bad(4, f"{len(found)} reports of {lines.count('report')}")
    return found


def outline(report, with_output):
    """The lines of an outcome."""
    words = report[1].split(" ")
    state = "running" if words[1] == "running" else " ".join(words[1:])
    found = ["stopped jump" if words[1:3] == ["stopped", "jump"] else state]
    found += [report[3]] if with_output else []
    is_shown = drops = False
    for line in report[4:]:
        if line.startswith("   "):
            if is_shown and not drops:
                found.append(("   by" if found[-1].startswith("   ") else "   at") + line[5:])
            drops = False
            continue
        is_shown = line.startswith(("error ", "leak "))
        if is_shown:
            found.append(line.partition(": ")[2] if line.startswith("error ") else line.partition(" blocks are ")[2])
        drops = is_shown and found[-1] == JUMP
    return tuple(found)


# ---- what runs have executed


def range_with(program):
    """The address and the length of the part of a program's file that is loaded where it begins."""
    entry, at, count = *struct.unpack_from("<2I", program, 24), struct.unpack_from("<H", program, 44)[0]
    for index in range(count):
        kind, _, address, _, size, room = struct.unpack_from("<6I", program, at + 32 * index)
        if kind == 1 and address <= entry < address + room:
            return address - address % 4, min(address % 4 + size, MOST_SIDES)
    raise Bad(4, "no segment has the entry")


def sides_of(options, room, program, edits, step):
    """The lines on what the unedited run and each edited one have executed."""
    start, length = range_with(program)
    looks = [f"look sides {start + at} {min(MOST_LOOKED, length - at)}" for at in range(0, length, MOST_LOOKED)]
    lines = [f"goto {step}", *looks]
    for edit, back in edits:
        lines += [edit, *looks, back]
    replies = [it for it in reply_to(options, room, lines, "look") if it != "ok"]
    if len(replies) != len(looks) * (1 + len(edits)) or not all(it.startswith("sides ") for it in replies):
        raise Bad(4, "a session has not answered looks by sides")
    digits = ["".join(it[6:] for it in replies[at:at + len(looks)]) for at in range(0, len(replies), len(looks))]
    table = "".join(str(2 * ("2" in each or "3" in each) + ("1" in each or "3" in each)) for each in map(set, zip(*digits)))
    unit = WORD if options.isa == "rv32im" else HALF
    for at in range(0, len(table), LINE_PLACES):
        row = table[at:at + LINE_PLACES]
        if row.strip("0"):
            yield f"sides 0x{start + unit * at:08x} {row}"


# ---- places and edits


def loaded(program, stack):
    """The bytes that a program's file loads, by address: none in the stack's region, which a segment may have inside."""
    at, count = struct.unpack_from("<I", program, 28)[0], struct.unpack_from("<H", program, 44)[0]
    memory = {}
    for index in range(count):
        kind, offset, address, _, size, room = struct.unpack_from("<6I", program, at + 32 * index)
        if kind == 1:
            content = program[offset:offset + size]
            memory.update((address + i, content[i] if i < size else 0) for i in range(room) if not stack[0] <= address + i < stack[1])
    return memory


def bytes_for(values, was):
    named = {"all": range(256), "flips": [was ^ 1 << bit for bit in range(8)],
             "edges": [*EDGES, (was + 1) % 256, (was - 1) % 256]}
    return sorted(set(named[values] if isinstance(values, str) else values) - {was})


def words_for(values, was, length):
    named = {"skip": [NO_OP[length]], "flips": [was ^ 1 << bit for bit in range(8 * length)]}
    listed = named[values] if isinstance(values, str) else values if length == WORD else []
    return [it for it in listed if it != was]


def value_at(memory, at, length):
    """The bytes from an address on as a number, None where not all of them are loaded."""
    whole = [memory.get(at + i) for i in range(length)]
    return None if None in whole else int.from_bytes(bytes(whole), "little")


def words_in(memory, first, last):
    """The words at multiples of 4, each its address, its length and what is there, None where it isn't loaded."""
    for at in range((first + 3) // 4 * 4, last + 1, WORD):
        yield at, WORD, value_at(memory, at, WORD)


def instructions_in(memory, first, last):
    """The instructions from one address on, by their lengths: 16 bits, if the two lowest aren't both set. Where none is loaded, or only the
    first half of one, there may be one two bytes later."""
    at = (first + 1) // HALF * HALF
    while at <= last:
        half = value_at(memory, at, HALF)
        length = WORD if half is None or half & 3 == 3 else HALF
        was = None if half is None else value_at(memory, at, length)
        if was is not None:
            yield at, length, was
        at += HALF if was is None else length


def code_places(options, program):
    """The words or the instructions of a sweep, as `places_of` has them."""
    look = words_in if options.isa == "rv32im" else instructions_in
    places = list(look(loaded(program, options.stack_region), *options.words))
    if all(was is None for _, _, was in places):
        raise Bad(3, "replaycheck: words refused 4")
    for at, length, was in places:
        form = f"patch 0x{at:08x} 0x%08x" if length == WORD else f"patch16 0x{at:08x} 0x%04x"
        yield "patch", at, form, was, [] if was is None else words_for(options.words_values, was, length)


def places_of(options, given, program):
    """The places of a sweep. Each is a word for an edit, a place, how it is written, what stands there, and its
    values."""
    found = []
    if options.bytes:
        first, last = options.bytes
        last = len(given) - 1 if last is None else last
        if not first <= last < len(given):
            raise Bad(3, "replaycheck: bytes refused 3")
        options.bytes = first, last
        found += [("input", at, f"input {at} %d", given[at], bytes_for(options.values, given[at]))
                  for at in range(first, last + 1)]
    if options.words:
        found += code_places(options, program)
    index, count = options.part
    return found[len(found) * (index - 1) // count:len(found) * index // count]


def end_of_run(options, room):
    """A step, soon after the end of the unedited run: an ended machine stays as it is."""
    step = 1024
    while step < options.step:
        if not reports_to(options, room, [f"goto {step}", "report"])[0][1].startswith("state running"):
            return step
        step *= 4
    return options.step


def outcomes_of(options, room, edits, step):
    """The outcome of each edit, which is a line and the one that takes it back. What still runs at an early step is asked
    again at a later one."""
    found, left = [None] * len(edits), list(range(len(edits)))
    while left:
        for begin in range(0, len(left), AT_ONCE):
            lines, chosen = [f"goto {step}"], left[begin:begin + AT_ONCE]
            for index in chosen:
                lines += [edits[index][0], "report", edits[index][1]]
            for index, report in zip(chosen, reports_to(options, room, lines)):
                found[index] = outline(report, options.with_output)
        left = [it for it in left if found[it][0] == "running"] if step < options.step else []
        step = min(4 * step, options.step)
    return found


def last_unread(options, room, offsets, end):
    """For each offset the last step up to the one that is asked for at which the unedited run hasn't read its byte, by
    bisection. It reads nothing after an early end."""
    known = {}

    def position(step):
        if step not in known:
            report, = reports_to(options, room, [f"goto {step}", "report"])
            known[step] = int(report[2].split(" ")[1])
        return known[step]

    found = {}
    for offset in sorted(set(offsets)):
        low, high = (0, end) if position(end) > offset else (options.step, options.step)
        while low < high:
            below = [it for it in known if low < it <= high]
            middle = (low + high + 1) // 2 if not below else sorted(below)[len(below) // 2]
            low, high = (middle, high) if position(middle) <= offset else (low, middle - 1)
        found[offset] = low
    return found


# ---- the table


def head(options, files):
    yield "sweep 1" if options.isa == "rv32im" and not has_regions(options) and not options.sides else "sweep 2"
    yield from [] if options.isa == "rv32im" else [f"isa {options.isa}"]
    yield from [] if options.heap_region == USUAL_HEAP else [f"heap-region 0x{options.heap_region:08x}"]
    yield from [] if options.stack_region == USUAL_STACK else ["stack-region 0x{:08x}..0x{:08x}".format(*options.stack_region)]
    for name, content in files.items():
        yield f"{name} {len(content)} {hashlib.sha256(content).hexdigest()}"
    if options.bytes:
        yield "bytes %d..%d " % options.bytes + options.told["bytes"]
    if options.words:
        yield "words 0x%08x..0x%08x " % options.words + options.told["words"]
    yield from ["sides yes"] if options.sides else []
    yield f"step {options.step}"
    yield f"output {'yes' if options.with_output else 'no'}"
    yield "part %d/%d" % options.part


def steps_of(options, room, places, end):
    if options.words:
        return "-"
    unread = last_unread(options, room, [at for _, at, *_ in places], end)
    return sum((options.step - unread[at]) * len(values) for _, at, _, _, values in places)


def table(options, room, files):
    """The lines of the table."""
    places = places_of(options, files["input"], files["program"])
    edits = [(form % value, form % was) for _, _, form, was, values in places for value in values]
    end = end_of_run(options, room)
    unedited, = reports_to(options, room, [f"goto {end}", "report"])
    yield from head(options, files)
    numbers, tallies = {}, []
    met = [("unedited", outline(unedited, options.with_output)),
           *zip((edit for edit, _ in edits), outcomes_of(options, room, edits, end))]
    for edit, outcome in met:
        if outcome not in numbers:
            numbers[outcome] = len(numbers)
            tallies.append(0)
            yield f"outcome {numbers[outcome]}"
            yield from outcome
        tallies[numbers[outcome]] += edit != "unedited"
        yield f"{edit} {numbers[outcome]}"
    for number, tally in enumerate(tallies):
        yield f"tally {number} {tally}"
    yield from sides_of(options, room, files["program"], edits, options.step) if options.sides else []
    yield f"end {len(edits)} {len(tallies)} {steps_of(options, room, places, end)}"


def read(path):
    if path is None:
        return b""
    try:
        with sys.stdin.buffer if path == "-" else open(path, "rb") as file:
            return file.read()
    except OSError:
        raise Bad(1, f"replaycheck: cannot read {path}") from None


def main(words):
    try:
        options = options_of(words)
        files = {"program": read(options.file), "input": read(options.input), "supp": read(options.supp)}
        with tempfile.TemporaryDirectory() as room:
            for name, content in files.items():
                with open(os.path.join(room, name), "wb") as file:
                    file.write(content)
            reply_to(options, room, [])
            for line in table(options, room, files):
                sys.stdout.buffer.write(line.encode("utf-8", "surrogateescape") + b"\n")
    except Bad as bad:
        sys.stdout.flush()
        print(bad, file=sys.stderr)
        return bad.status
    return 0


if __name__ == "__main__":
    if "--help" in sys.argv[1:]:
        print(__doc__)
    else:
        sys.exit(main(sys.argv[1:]))
