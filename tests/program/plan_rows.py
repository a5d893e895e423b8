"""The rows of tests/program/test-tries on plans of tries, beside the same edits tried by a line each."""
import dataclasses
import random

from checkout import TOP

FIRMWARE = TOP / "examples/firmware"
EDGES = (0, 1, 127, 128, 255)
LONGEST_LINE, MOST_LINES = 4096, 100000
# The values that a byte gets instead of its own, in order, by the words for them.
VALUES = {
    "all": lambda old: [new for new in range(256) if new != old],
    "flips": lambda old: sorted(old ^ 1 << bit for bit in range(8)),
    "edges": lambda old: sorted({*EDGES, (old + 1) % 256, (old - 1) % 256} - {old}),
}
REFUSED, OK = ["refused 2"], ["end"]
BEYOND = ["refused 3"]
# Lines of plans by what is wrong with them, if anything is, with their replies for an input of two bytes that nothing reads.
FORMS = (
    ("both bytes", "tries 0..2 flips", OK), ("the last byte", "tries 1..2 edges", OK), ("hexadecimal numbers", "tries 0x0..0x2 all", OK),
    ("an end that is beyond the input", "tries 0..3 all", BEYOND), ("a place that is", "tries 2..3 all", BEYOND),
    ("the greatest end", "tries 0..4294967295 all", BEYOND), ("a greater end", "tries 0..4294967296 all", REFUSED),
    ("no place", "tries 1..1 all", REFUSED), ("an end before the place", "tries 2..1 all", REFUSED),
    ("no place beyond the input", "tries 9..9 all", REFUSED), ("one dot", "tries 0.1 all", REFUSED),
    ("three dots", "tries 0...1 all", REFUSED), ("three numbers", "tries 0..1..2 all", REFUSED), ("no end", "tries 0.. all", REFUSED),
    ("no begin", "tries ..1 all", REFUSED), ("one number", "tries 0 all", REFUSED), ("a sign", "tries -1..1 all", REFUSED),
    ("no number", "tries a..1 all", REFUSED), ("no values", "tries 0..1", REFUSED), ("no fields", "tries", REFUSED),
    ("a field too many", "tries 0..1 all all", REFUSED), ("a space after it", "tries 0..1 all ", REFUSED),
    ("two spaces", "tries  0..1 all", REFUSED), ("a tab", "tries\t0..1 all", REFUSED), ("a space in the range", "tries 0.. 1 all", REFUSED),
    ("a list of values", "tries 0..1 1,2", REFUSED), ("a value", "tries 0..1 7", REFUSED), ("capital letters", "tries 0..1 ALL", REFUSED),
    ("a longer word", "tries 0..1 alls", REFUSED), ("a word without its end", "tries 0..1 edge", REFUSED),
    ("a word in capital letters", "TRIES 0..1 all", REFUSED), ("a space before it", " tries 0..1 all", REFUSED),
)


@dataclasses.dataclass(frozen=True)
class Plan:
    """A plan, and the lines before it and after it."""

    first: int
    end: int
    values: str
    before: tuple[str, ...] = ()
    after: tuple[str, ...] = ()

    @property
    def line(self):
        return f"tries {self.first}..{self.end} {self.values}"

    def edits(self, given):
        """A line for each of its edits."""
        return [f"try {at} {new:02x}" for at in range(self.first, self.end) for new in VALUES[self.values](given[at])]


def has_news(reply):
    return len(reply) > 1 or not reply[-1].endswith(" new 0 again 0")


def plan_faults(sessions, guest, given, plan):
    """What a session with a plan is answered otherwise than one with a line for each of its edits."""
    edits = plan.edits(given)
    found, left = sessions.tried(guest, given, [*plan.before, plan.line, "take", *plan.after, plan.line])
    wanted, more = sessions.tried(guest, given, [*plan.before, *edits, "worked", *plan.after])
    at = len(plan.before)
    told = [it for line, reply in zip(edits, wanted[at:at + len(edits)]) if has_news(reply) for it in (line, *reply)]
    rest = wanted[at + len(edits) + 1:]
    expected = [*wanted[:at], [*told, "end"], ["refused 2"], *rest, ["end"]]
    for line, one, other in zip([*plan.before, plan.line, "take", *plan.after, plan.line], found, expected, strict=True):
        if one != other:
            yield f"{line}: {next((it for it in zip(one, other) if it[0] != it[1]), (len(one), len(other)))}"
    if left or more:
        yield f"left: {left[:3]}, {more[:3]}"


def programs():
    """Programs with their inputs, and steps at which runs are far enough."""
    for name, step in (("station", 2000), ("station", 400), ("kinds", 400), ("boot", 300)):
        yield name, FIRMWARE / f"{name}.elf", (), (FIRMWARE / f"{name}.input").read_bytes(), step
    yield "station for rv32imc", FIRMWARE / "rv32imc/station.elf", ("--isa", "rv32imc"), (FIRMWARE / "station.input").read_bytes(), 900


def random_plan(seed, given, step):
    """A plan of some bytes, among other tries."""
    chosen = random.Random(f"plan {seed}")
    first = chosen.randrange(len(given))
    values = chosen.choice([*VALUES])
    end = min(len(given), first + chosen.randint(1, 2 if values == "all" else 6))

    def attempt():
        return f"try {chosen.randrange(len(given))} {chosen.randrange(256):02x}"

    before = (f"goto {step}", *(attempt() for _ in range(chosen.randrange(3))))
    return Plan(first, end, values, before, tuple(attempt() for _ in range(3)))


def plan_rows(sessions, guest_of, count):
    """What is otherwise than by single lines, a row each with its label."""
    for name, file, words, given, step in programs():
        for seed in range(count):
            plan = random_plan(f"{name} {step} {seed}", given, step)
            yield f"{plan.line} of {name} at {step}", [*plan_faults(sessions, guest_of(file, words), given, plan)]
    station, given = guest_of(FIRMWARE / "station.elf", ()), (FIRMWARE / "station.input").read_bytes()
    whole = Plan(0, len(given), "flips", ("goto 2000",), ("try 39 69",))
    yield "a plan of the whole input", [*plan_faults(sessions, station, given, whole)]


def form_rows():
    """Lines after a try that has met all there is, with what each is answered, by labels."""
    for label, line, wanted in FORMS:
        yield f"a plan with {label}", [line], [wanted]
    yield "take after a plan that is rejected", ["tries 0..9 all", "take"], [BEYOND, ["ok"]]
    yield "take after a plan", ["tries 0..1 edges", "take"], [OK, REFUSED]
    longest = f"tries 0..1 {'0' * (LONGEST_LINE - 11)}"
    yield "plans in the longest line and in a longer one", [longest, f"{longest}0"], [REFUSED, ["refused 11"]]
    over = ["goto 0"] * (MOST_LINES + 1)
    counted = [["ok"]] * MOST_LINES + [["refused 12"]]
    yield "plans aren't counted among a session's lines", ["tries 0..1 edges", *over], [OK, *counted]
    yield "a plan after the last line", [*over, "tries 0..1 edges"], [*counted, []]
