"""The small programs of tests/golden/any, what each command line of `certify` prints of them, and command lines that it rejects: README.md
there has the form of a row."""
import dataclasses
import pathlib
import subprocess

from checkout import TOP
from guest_files import elf
from guest_rows import assembled
from replaycheck.guest.assembly import number_of
from replaycheck.programs import USUAL, isa_words

TABLES = TOP / "tests" / "golden" / "any"
# `key` in a program: four bytes of the input at s0, the first two of them also in t0 and t1.
KEY = "li s0, 0x10800; li a0, 0; mv a1, s0; li a2, 4; call read; lbu t0, 0(s0); lbu t1, 1(s0)"


@dataclasses.dataclass
class Asked:
    """The options of a command line, and the lines that it prints, last `status N` where that isn't 0."""

    options: list[str]
    want: list[str] = dataclasses.field(default_factory=list)


@dataclasses.dataclass
class AnyGuest:
    """A program, its input, its instruction set, and what is asked of it."""

    label: str
    code: str = ""
    memory: int = 0x1000
    input: bytes = bytes(4)
    isa: str = USUAL
    asked: list[Asked] = dataclasses.field(default_factory=list)

    def add(self, line: str) -> None:
        """Takes a line of the table."""
        first, _, rest = line.partition(" ")
        if self.asked and first != ">":
            self.asked[-1].want.append(line)
        elif first == ">":
            self.asked.append(Asked(rest.split()))
        elif line.startswith("  "):
            self.code += line.strip() + "\n"
        elif first == "memory":
            self.memory = number_of(rest)
        elif first == "input":
            self.input = bytes.fromhex(rest)
        elif first == "isa":
            self.isa = rest
        else:
            raise ValueError(f"{self.label}: no such line: {line}")

    def give(self, folder: pathlib.Path) -> None:
        """Writes the program and its input into a folder."""
        pieces = [KEY if piece.strip() == "key" else piece for piece in self.code.replace("\n", ";").split(";")]
        (folder / "guest").write_bytes(elf(assembled(";".join(pieces)), self.memory))
        (folder / "input").write_bytes(self.input)

    def printed(self, program: str, folder: pathlib.Path, options: list[str]) -> list[str]:
        """What a command line prints."""
        words = [program, "certify", "guest", "--input", "input", *isa_words(self.isa), *options]
        done = subprocess.run(words, cwd=folder, stdin=subprocess.DEVNULL, capture_output=True, text=True)
        return done.stdout.splitlines() + done.stderr.splitlines() + ([f"status {done.returncode}"] if done.returncode else [])


def guests_of(table: pathlib.Path) -> list[AnyGuest]:
    """Returns the programs of a table."""
    guests: list[AnyGuest] = []
    for line in table.read_text().splitlines():
        first, _, rest = line.partition(" ")
        if first == "guest":
            guests.append(AnyGuest(rest))
        elif line and not line.startswith("#"):
            guests[-1].add(line)
    return guests


SAME = "same instructions, same addresses, same status, same errors but for writes of uninitialised bytes"
MANY = [word for place in range(65) for word in ("--any", str(place))]
WITH_INPUT = ["--input", "input"]
# What a program may lack, with a command line that it then rejects: the rows that need it are left out.
SEVERAL, TIMING = "several", "timing"
FEATURES = {SEVERAL: ["--any", "0", "--any", "1"], TIMING: ["--any", "0", "--timing", "div"]}
# Command lines that are wrong, on a program with an input of four bytes: the status, and what standard error names.
REJECTED = [
    ("a byte beyond the input", [*WITH_INPUT, "--any", "4"], 3, ["bytes refused 3"]),
    ("a range beyond the input", [*WITH_INPUT, "--any", "2..4"], 3, ["bytes refused 3"]),
    ("a byte of no input", ["--any", "0"], 3, ["bytes refused 3"]),
    ("a range twice", [*WITH_INPUT, "--any", "1", "--any", "1"], 2, ["--any"]),
    ("a range from its end on", [*WITH_INPUT, "--any", "3..1"], 2, ["--any 3..1"]),
    ("no number", [*WITH_INPUT, "--any", "x"], 2, ["--any x"]),
    ("a number of 33 bits", [*WITH_INPUT, "--any", "4294967296"], 2, ["--any 4294967296"]),
    ("nothing", [*WITH_INPUT, "--any", ""], 2, ["--any"]),
    ("no value", [*WITH_INPUT, "--any"], 2, ["--any"]),
    ("an address, and no range", [*WITH_INPUT, "--any-memory", "0x10800"], 2, ["--any-memory 0x10800"]),
    ("a range of no address", [*WITH_INPUT, "--any-memory", "0x10800..0x10800"], 2, ["--any-memory 0x10800..0x10800"]),
    ("a name that is no symbol's", [*WITH_INPUT, "--any-memory", "key"], 2, ["--any-memory key"]),
    ("a reveal without its length", [*WITH_INPUT, "--any", "0", "--reveal", "5,0x10800"], 2, ["--reveal 5,0x10800"]),
    ("a reveal of no byte", [*WITH_INPUT, "--any", "0", "--reveal", "5,0x10800,0"], 2, ["--reveal 5,0x10800,0"]),
    ("a reveal beyond the last address", [*WITH_INPUT, "--any", "0", "--reveal", "5,0xffffffff,2"], 2, ["--reveal 5,0xffffffff,2"]),
    ("a reveal at a step that is none", [*WITH_INPUT, "--any", "0", "--reveal", "2147483648,0x10800,1"], 2,
     ["--reveal 2147483648,0x10800,1"]),
    ("a reveal and nothing that is any", [*WITH_INPUT, "--reveal", "5,0x10800,1"], 2, ["--reveal", "--any"]),
]
# The same of what a program may lack.
REJECTED_OF = {
    SEVERAL: [
        ("ranges that overlap", [*WITH_INPUT, "--any", "0..2", "--any", "2..3"], 2, ["--any 0..2", "--any 2..3", "overlap"]),
        ("ranges of memory that overlap", [*WITH_INPUT, "--any-memory", "0x10800..0x10804", "--any-memory", "0x10803..0x10805"], 2,
         ["--any-memory 0x00010800..0x00010804", "--any-memory 0x00010803..0x00010805", "overlap"]),
        ("more than 64 ranges", [*WITH_INPUT, *MANY], 2, ["--any", "64"]),
    ],
    TIMING: [
        ("timing and nothing that is any", [*WITH_INPUT, "--timing", "div"], 2, ["--timing", "--any"]),
        ("timing of another instruction", [*WITH_INPUT, "--any", "0", "--timing", "add"], 2, ["--timing add"]),
        ("timing of one twice", [*WITH_INPUT, "--any", "0", "--timing", "div,div"], 2, ["--timing div,div"]),
        ("timing of nothing", [*WITH_INPUT, "--any", "0", "--timing", ""], 2, ["--timing"]),
        ("timing twice", [*WITH_INPUT, "--any", "0", "--timing", "div", "--timing", "mul"], 2, ["--timing"]),
    ],
}
# A branch on the key, which is only taken where the option is in force.
BRANCH = "beq t0, x0, .+8; nop; exit 0"


def up_to(step: int, what: str, end: str = "") -> str:
    return f"{what.split('|')[0]}: the run is the same up to step {step} for each value of {what.split('|')[1]}: {SAME}{end}"


def branches_at(step: int, address: int) -> list[str]:
    text = "Conditional jump or move depends on uninitialised value(s)"
    return [f"not the same for any 0: first use at step {step}: {text} at {address:#010x}: ???", "status 5"]


ONE = "any 0|this byte of the input"
# What is printed with each other option, and without it: the program, the options beside `--input`, and the lines.
BESIDE = [
    ("--most-moved", AnyGuest("", "key; exit 0"), ["--any", "0..3", "--most-moved", "2"],
     [up_to(4194304, "any 0..3|these bytes of the input"), " input 2..3 is not read up to step 4194304"]),
    ("--step", AnyGuest("", "key; exit 0"), ["--any", "0", "--step=12"], [up_to(12, ONE)]),
    ("numbers with a base", AnyGuest("", "key; exit 0"), ["--any", "0x1..0x2"], [up_to(4194304, "any 1..2|these bytes of the input")]),
]
WRITES = AnyGuest("", f"key; li a0, 1; mv a1, s0; li a2, 4; call write; li t2, 4; beq a0, t2, .+8; {BRANCH}")
MOVED = AnyGuest("", f"key; srli t2, sp, 24; li t3, 0x7e; bne t2, t3, .+8; {BRANCH}")
PLACED = AnyGuest("", f"key; li a0, 1; call malloc; lui t2, 0x50000; addi t2, t2, 16; bne a0, t2, .+8; {BRANCH}")
for label, guest, options, step, address in (
        ("--most-output", WRITES, ["--most-output", "3"], 16, 0x10040),
        ("--stack-region", MOVED, ["--stack-region", "0x7e000000..0x7f000000"], 12, 0x10030),
        ("--heap-region", PLACED, ["--heap-region", "0x50000000"], 15, 0x1003c)):
    BESIDE += [(label, guest, ["--any", "0", *options], branches_at(step, address)),
               (f"no {label}", guest, ["--any", "0"], [up_to(4194304, ONE)])]
BESIDE += [("--isa", AnyGuest("", f"key; csrw mscratch, t0; {BRANCH}", isa="rv32imc"), ["--any", "0"], branches_at(10, 0x10028)),
           ("no --isa", AnyGuest("", f"key; csrw mscratch, t0; {BRANCH}"), ["--any", "0"], [up_to(4194304, ONE)])]
