"""Steps at which the machine is altered: the fault models, and the edits of each step in the order of a table."""
import re
from dataclasses import dataclass
from itertools import chain, takewhile
from typing import Iterator, List, Optional, Tuple

from replaycheck.hindering import hinders

from .ranges import WORD, Places

LAST_REGISTER, BITS, ONES, BYTE_BITS, ADDRESSES = 31, 32, 0xFFFFFFFF, 8, 1 << 32
# The fault models, each with what it does: in the order of a place's edits, but that those of `memory` come after the others.
MODELS = {
    "skip": "an instruction left out",
    "registers": "a bit of a register inverted",
    "pc": "a bit of pc inverted",
    "words": "an instruction with one bit inverted",
    "memory": "a bit of a byte inverted that is read later",
    "zero": "a register set to 0",
    "ones": "a register set to all ones",
}
# How many edits a place has; of bytes of memory as many as the run reads later. An instruction of 16 bits has as many of `words` as bits.
SIZES = {"skip": 1, "registers": LAST_REGISTER * BITS, "pc": BITS, "words": BITS, "zero": LAST_REGISTER, "ones": LAST_REGISTER}
REGISTERS = [f"x{number}" for number in range(1, LAST_REGISTER + 1)]
MASKS = [f"0x{1 << bit:08x}" for bit in range(BITS)]
TURNED = re.compile(r"flip [0-9]+ (0x[0-9a-f]{8}) [^ ]+; ")  # an instruction of the program, for one step
BIT = re.compile(r"flip [0-9]+ (0x[0-9a-f]{8}) (0x[0-9a-f]{8})")  # a bit of a word, from there on
PAIR = re.compile(r"skip ([0-9]+); skip ([0-9]+)")


@dataclass(frozen=True)
class Steps(Places):
    """Steps of the unedited run, from a first to a last one, at which the machine is altered. `values` are the fault models, as they
    were given, between commas; `code` is the range of pc at which it is, if that is narrowed. `unit` is how many bytes the shortest
    instruction has."""

    first: int
    last: int
    values: str
    code: Optional[Tuple[int, int]] = None
    has_pairs: bool = False
    unit: int = WORD

    kind = "steps"
    stride = 1

    @property
    def models(self):
        """The models in their order."""
        given = self.values.split(",")
        return [model for model in MODELS if model in given]

    @property
    def has_memory(self):
        return "memory" in self.models

    def hinders(self, isa: str, heap: int) -> bool:
        """Whether one of its edits is in the way of a clean run's guarantee. At each step a model has edits of the same form."""
        edits = chain(self.singles(self.first, "0x00000000", BITS), byte_edits(self.first, 0) if self.has_memory else (),
                      [f"skip {self.first}; skip {self.last}"] if self.has_pairs else ())
        return any(hinders(edit, isa, heap) for edit in edits)

    @property
    def start(self):
        return self.first

    @property
    def size(self):
        return self.last - self.first + 1

    @property
    def single(self):
        """How many edits a place has at most, without those of memory and without pairs."""
        return sum(SIZES.get(model, 0) for model in self.models)

    @property
    def most(self):
        """How many edits a place has at most."""
        return (self.single + (BYTE_BITS * ADDRESSES if self.has_memory else 0)
                + (self.last - self.first if self.has_pairs else 0))

    @staticmethod
    def named(place):
        return str(place)

    @staticmethod
    def called(place):
        """A place in words."""
        return f"step {place}"

    @staticmethod
    def line(_, edit):
        """The lines of a session that make an edit, which are its value."""
        return edit

    @property
    def asked(self):
        """What it is, as the head of a table has it."""
        code = " code 0x%08x..0x%08x" % self.code if self.code else ""
        return f"{self.first}..{self.last} {self.values}{code}{' pairs skip' if self.has_pairs else ''}"

    def __str__(self):
        return "steps " + ", ".join(filter(None, (
            f"{self.first}..{self.last}", f"faults {self.values}", self.code and "code 0x%08x..0x%08x" % self.code,
            self.has_pairs and "pairs skip")))

    def words(self):
        """The options that ask for it."""
        return [f"--at={self.first}..{self.last}", f"--faults={self.values}",
                *(["--code-range=0x%08x..0x%08x" % self.code] if self.code else []), *(["--pairs=skip"] if self.has_pairs else [])]

    # ---- the edits of a place

    def singles(self, step: int, address: Optional[str], bits: int) -> Iterator[str]:
        """The edits of a step but for those of memory and pairs. `address` is that of the instruction at its pc, which has this number of
        bits, if it is known."""
        for model in self.models:
            yield from edits_of(model, step, address, bits)

    def has_all(self, step: int, edits: List[str]) -> bool:
        """Whether these are all edits of a step, in order. Which bytes are read later depends on the run, and which second steps pairs
        have on the run with the first skip."""
        found, bits = instruction_of(edits)
        wanted = list(self.singles(step, found, bits))
        rest = edits[len(wanted):]
        turned = list(takewhile(BIT.fullmatch, rest))
        pairs = rest[len(turned):]
        if found and bits not in range(BYTE_BITS * self.unit, BITS + 1, BYTE_BITS * self.unit):
            return False
        if edits[:len(wanted)] != wanted or turned and not self.has_memory or pairs and not self.has_pairs:
            return False
        if turned_bytes(step, turned) is None:
            return False
        last = step
        for pair in map(PAIR.fullmatch, pairs):
            if not pair or int(pair[1]) != step or not last < int(pair[2]) <= self.last:
                return False
            last = int(pair[2])
        return not (found and self.code) or self.code[0] <= int(found, 16) <= self.code[1]


def instruction_of(edits: List[str]) -> Tuple[Optional[str], int]:
    """The address of the instruction that edits of a step invert, if there are some, and the number of its bits."""
    turned = [edit[1] for edit in map(TURNED.match, edits) if edit]
    return (turned[0], len(turned)) if turned else (None, 0)


def byte_edits(step: int, address: int) -> Iterator[str]:
    """The edits of a byte at a step: each of its bits, inverted in the word that has it."""
    word, place = address & ~3, address % 4
    return (f"flip {step} 0x{word:08x} 0x{1 << BYTE_BITS * place + bit:08x}" for bit in range(BYTE_BITS))


def bit_of(edit: str) -> Tuple[int, int]:
    """The address of the byte, and the number of the bit in it, of an edit of memory; of a mask of several bits the highest."""
    _, _, word, mask = edit.split(" ")
    place = max(int(mask, 16).bit_length() - 1, 0)
    return int(word, 16) + place // BYTE_BITS, place % BYTE_BITS


def turned_bytes(step: int, edits: List[str]) -> Optional[List[int]]:
    """The addresses of the bytes that edits of memory at a step are of; None where they aren't whole bytes in ascending order."""
    found: List[int] = []
    for begin in range(0, len(edits), BYTE_BITS):
        address = bit_of(edits[begin])[0]
        if found and address <= found[-1] or edits[begin:begin + BYTE_BITS] != list(byte_edits(step, address)):
            return None
        found.append(address)
    return found


def edits_of(model: str, step: int, address: Optional[str], bits: int = BITS) -> Iterator[str]:
    """The edits of a model at a step, of the instruction at an address of this number of bits."""
    if model == "skip":
        yield f"skip {step}"
    elif model == "registers":
        yield from (f"flip {step} {register} {mask}" for register in REGISTERS for mask in MASKS)
    elif model == "pc":
        yield from (f"flip {step} pc {mask}" for mask in MASKS)
    elif model == "words" and address:
        yield from (f"flip {step} {address} {mask}; flip {step + 1} {address} {mask}" for mask in MASKS[:bits])
    elif model in ("zero", "ones"):
        yield from (f"set {step} {register} 0x{0 if model == 'zero' else ONES:08x}" for register in REGISTERS)


def steps_in(edit: str) -> List[int]:
    """The steps at which an edit alters the machine."""
    return list(dict.fromkeys(int(line.split(" ")[1]) for line in edit.split("; ")))


def models_fault(text: str) -> str:
    """Why a text names no models, or nothing."""
    names = text.split(",")
    unknown = next((name for name in names if name not in MODELS), None)
    if unknown is not None:
        return f"an unknown fault model: {unknown!r}; there are {', '.join(MODELS)}"
    return "a fault model twice" if len(set(names)) < len(names) else ""
