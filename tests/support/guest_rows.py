"""The small programs in assembly of tests/golden/guests, and what each is told: README.md there has the form of a row."""
import os
import re
import subprocess

from checkout import TOP
from guest_files import ENTRY, answered, elf
from replaycheck.guest.assembly import assemble, number_of
from replaycheck.programs import USUAL, isa_words
from replaycheck.reports import LEAK_KINDS

TABLES = TOP / "tests" / "golden" / "guests"
CALLS = {"read": 63, "write": 64, "exit": 93, "exit_group": 94, "malloc": 2001, "free": 2002, "calloc": 2003, "realloc": 2004}
STEPS = 1000


def assembled(text, labels=()):
    """The words of a program, which may have lines of this table's own."""
    pieces = []
    for piece in re.split(r"[;\n]", text):
        match piece.replace(",", " ").split():
            case ["want", register, number]:  # an EBREAK where it isn't so
                piece = f"li t6, {number}; beq {register}, t6, .+8; ebreak"
            case ["call", name]:
                piece = f"li a7, {CALLS[name]}; ecall"
            case ["exit", number]:
                piece = f"li a0, {number}; li a7, 93; ecall"
        pieces.append(piece)
    return assemble(";".join(pieces), labels)


def told_of(reply, leaks):
    """The lines that are told of a reply, each with what is indented below it: of a report not the numbers that are 0, and of leaks
    where they are asked for."""
    lines = re.sub(r"\n +", " ", re.sub(r": \?\?\?$", "", reply, flags=re.M)).splitlines()
    left_out = r"ok$|step |input 0 |output 0$|ERROR SUMMARY|.*: 0 bytes in" + ("" if leaks else r"|leak |.*: \d+ bytes in")
    return [line for line in lines if not re.match(left_out, line)]


class Guest:
    """A program, its input, the lines of its session, and what is told of their replies."""

    def __init__(self, label):
        self.label, self.code, self.input, self.lines, self.want = label, "", b"", [], []
        self.labels, self.entry, self.memory, self.isa = {}, ENTRY, 0, USUAL

    def add(self, line):
        """One line of the table."""
        first, _, rest = line.strip().partition(" ")
        if line.startswith("    "):
            self.want[-1] += " " + line.strip()
        elif line.startswith(" "):
            self.code += line.strip() + "\n"
        elif first == ">":
            self.lines.append(rest)
        elif first == "zeros":
            self.input = bytes(number_of(rest))
        elif first == "memory":
            self.memory = number_of(rest)
        elif first == "entry":
            self.entry = number_of(rest)
        elif first == "functions":
            self.labels = {name: number_of(rest) + 4 * i for i, name in enumerate(["malloc", "free", "calloc", "realloc"])}
        else:
            self.want.append(line)

    def give(self, folder):
        """Writes the program and its input."""
        symbols = [(name, at, 4) for name, at in self.labels.items()]
        guest = elf(assembled(self.code, self.labels), self.memory, symbols, entry=self.entry)
        for name, content in [("guest", guest), ("input", self.input)]:
            with open(os.path.join(folder, name), "wb") as out:
                out.write(content)

    def replies(self, program, folder):
        self.give(folder)
        lines = [f"goto {STEPS}", *self.lines] + ([] if "report" in self.lines else ["report"])
        typed = "".join(f"{line}\n" for line in lines)
        command = "look" if any(line.startswith("look ") for line in lines) else "session"
        words = [program, command, "guest", "--input", "input", *isa_words(self.isa)]
        ran = subprocess.run(words, cwd=folder, input=typed, capture_output=True, text=True)
        if ran.returncode or ran.stderr:
            raise ValueError(f"status {ran.returncode} {ran.stderr}".rstrip())
        return answered(ran.stdout.splitlines())

    def told(self, program, folder):
        asks = any(line.startswith("option show") for line in self.lines)
        return [line for reply in self.replies(program, folder) for line in told_of(reply, asks)]


class Lost(Guest):
    """Blocks of some sizes, a register and words: the kinds that the search for leaks finds."""

    TEMPORARY = ("x5", "x6", "x7", "x28", "x10", "x17")

    def __init__(self, row):
        sizes, register, words, kinds = (part.split(",") for part in row.split("|"))
        super().__init__(f"lost {row}")
        self.want, self.allocated = [" ".join(kinds).strip(), "state stopped break"], []
        self.lines = ["option redzone 0", "option show all"]
        self.code = "addi sp, sp, -16\n"
        for size in sizes:
            self.code += f"li a0, {size}; call malloc\n"
        for word in filter(str.strip, words):
            at, *value = word.split()
            self.lines.append(f"mark 0 {self.number(at)} 4 defined")
            self.put("x6", value)
            self.code += f"li t0, {self.number(at)}; sw t1, 0(t0)\n"
        name, *value = register[0].split()
        self.put(name, value)
        self.code += "".join(f"li {other}, 0\n" for other in self.TEMPORARY if other != name) + "ebreak"

    @staticmethod
    def number(text):
        """A number, or the place of a block with a distance from it."""
        block, sign, away = re.fullmatch(r"([A-D]|\w+)([+-]?)(\d*)", text).groups()
        base = 0x40000000 + 16 * "ABCD".index(block) if block in "ABCD" else number_of(block)
        return base + number_of((sign + away) or "0")

    def put(self, register, value):
        """A register gets a value, of which some bits are undefined."""
        number, undefined = self.number(value[0]), value[1:] or ["0"]
        self.code += f"li t2, {undefined[0]}; lw t3, 0(sp); and t2, t2, t3; li t3, {number}; xor {register}, t2, t3\n"

    def told(self, program, folder):
        told = super().told(program, folder)
        leaks = re.findall(r"^leak .* are (.*) at (\S*)$", "\n".join(told), re.M)
        others = [line.rsplit(" ", 1)[0] for line in told if not re.match(r"leak |.*: \d+ bytes", line)]
        return [" ".join(LEAK_KINDS[kind] for kind, _ in sorted(leaks, key=lambda leak: leak[1])), *others]


def value_row(row):
    """Two numbers in t0 and t1, an instruction, and the number that it leaves in t2, without an error."""
    numbers, code, want = row.split("|")
    x, y = numbers.split()
    guest = Guest(f"value {row}")
    guest.code, guest.want = f"li t0, {x}; li t1, {y}\n{code}\nwant t2, {want}\nexit 7", ["state exited 7"]
    return guest


KINDS = {"value": value_row, "lost": Lost, "guest": Guest}


def guests_of(table):
    guests, isa = [], USUAL
    for line in table.read_text().splitlines():
        first, _, rest = line.partition(" ")
        if first in KINDS:
            guests.append(KINDS[first](rest))
            guests[-1].isa = isa
        elif first == "isa":
            isa = rest
        elif line and not line.startswith("#"):
            guests[-1].add(line)
    return guests
