"""Reports for tests of the parser: random ones, one with each shape of line, and texts that are no reports."""
import random

from replaycheck.reports import SUMS, Address, Error, Frame, Leak, Note, Report, State, Sum

NAMES = ["main", "???", "_start", "a.b$c", "operator?", "f(int,char*)", "x" * 300, "!", "~"]
TEXTS = ["Invalid read of size 1", "Invalid read of size 2", "Invalid read of size 4", "Invalid write of size 1",
         "Invalid write of size 2", "Invalid write of size 4", "Use of uninitialised value of size 4",
         "Conditional jump or move depends on uninitialised value(s)",
         "Syscall param exit(status) contains uninitialised byte(s)",
         "Syscall param write(buf) points to uninitialised byte(s)",
         "Syscall param (syscallno) contains uninitialised byte(s)",
         "Syscall param read(buf) points to unaddressable byte(s)", "Invalid free() / realloc()",
         "Jump to the invalid address stated on the next line"]
ELSEWHERE = ["in the stack region", "not stack'd, malloc'd or (recently) free'd"]


def address(chance):
    return Address(chance.getrandbits(32))


def trace(chance):
    return [Frame(address(chance), chance.choice(NAMES)) for _ in range(chance.choice([1, 2, 3, 24]))]


def note(chance, kind):
    """No note, one on a region, or one on a block with its trace."""
    if kind == 0:
        return None
    if kind < 3:
        return Note(address(chance), ELSEWHERE[kind - 1])
    offset, size = chance.randrange(5000), chance.getrandbits(24)
    side, state = chance.choice(["inside", "before", "after"]), chance.choice(["alloc'd", "free'd"])
    return Note(address(chance), f"{offset} bytes {side} a block of size {size} {state}", offset, side, size, state,
                trace(chance))


def state(chance):
    return chance.choice([State("running", address=address(chance)), State("exited", status=chance.randrange(256)),
                          State("stopped", why=chance.choice(["jump", "break", "illegal", "misaligned"]),
                                address=address(chance))])


def random_report(chance, errors, leaks):
    numbers = [chance.getrandbits(chance.choice([1, 8, 22, 40])) for _ in range(8)]
    found = [Error(chance.randrange(1, 9999), chance.choice(TEXTS), trace(chance), note(chance, chance.randrange(4)))
             for _ in range(errors)]
    lost = [Leak(chance.getrandbits(20), chance.randrange(1, 99), chance.choice(SUMS[:4]), trace(chance))
            for _ in range(leaks)]
    sums = {name: Sum(chance.getrandbits(24), chance.getrandbits(10)) for name in SUMS}
    return Report(numbers[0], state(chance), numbers[1], numbers[2], numbers[3], found, lost, sums, *numbers[4:])


def random_reports(count):
    for seed in range(count):
        chance = random.Random(seed)
        yield random_report(chance, chance.randrange(6), chance.randrange(4))


def each_shape():
    """A report of each state, in which each text has each sort of note, and each kind of leak stands."""
    chance = random.Random(0)
    for made in (State("running", address=Address(0x10000)), State("exited", status=255),
                 *(State("stopped", why=why, address=Address(0))
                   for why in ("jump", "break", "illegal", "misaligned"))):
        report = random_report(chance, 0, 0)
        report.state = made
        report.errors = [Error(1, text, trace(chance), note(chance, kind)) for text in TEXTS for kind in range(4)]
        report.leaks = [Leak(8, 1, kind, trace(chance)) for kind in SUMS[:4]]
        yield report


def wrong_texts(report):
    """Texts of which each is a report with one line taken out, made another one, put in, or
    changed over with the one before."""
    lines = str(report).splitlines()
    for index, line in enumerate(lines):
        starts_note = line.startswith((" Address", "error ", "leak "))
        if not line.startswith("   by") and not starts_note:
            yield lines[:index] + lines[index + 1:]
        yield lines[:index] + [line + " "] + lines[index + 1:]
        yield lines[:index] + ["hello", *lines[index:]]
        if index:
            yield lines[:index]
            if not line.startswith("   by") or not lines[index - 1].startswith("   by"):
                yield lines[:index - 1] + [line, lines[index - 1]] + lines[index + 1:]
