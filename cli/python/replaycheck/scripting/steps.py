"""What holds at a step of a run: registers, memory, the function; and what is certified up to it."""
from __future__ import annotations

from dataclasses import dataclass
from typing import TYPE_CHECKING, List, NamedTuple, Optional, Tuple, Union

from replaycheck.reports import Address, Lines, State, read_state
from replaycheck.verdicts import CLEAN, CLEAN_SO_FAR

if TYPE_CHECKING:
    from replaycheck.scripting.runs import Run

# An address: a number, or the name of a symbol.
Place = Union[int, str]
FIRST_USE = "not clean: first use at step "


class Registers(NamedTuple):
    """The registers by their names in the calling convention, or by number: `registers.a0` is `registers[10]`."""

    zero: int
    ra: int
    sp: int
    gp: int
    tp: int
    t0: int
    t1: int
    t2: int
    s0: int
    s1: int
    a0: int
    a1: int
    a2: int
    a3: int
    a4: int
    a5: int
    a6: int
    a7: int
    s2: int
    s3: int
    s4: int
    s5: int
    s6: int
    s7: int
    s8: int
    s9: int
    s10: int
    s11: int
    t3: int
    t4: int
    t5: int
    t6: int

    @property
    def fp(self) -> int:
        """The frame pointer: another name of `s0`."""
        return self.s0


@dataclass(frozen=True)
class Memory:
    """Bytes of memory. `undefined` has the undefined bits of each byte, and None for a byte that may not be accessed."""

    address: Address
    data: bytes
    undefined: Tuple[Optional[int], ...]

    def __bytes__(self) -> bytes:
        return self.data

    def __len__(self) -> int:
        return len(self.data)

    @property
    def value(self) -> int:
        """The number that the bytes are, the least significant one first."""
        return int.from_bytes(self.data, "little")

    @property
    def is_defined(self) -> bool:
        """Whether each byte may be accessed and has no undefined bit."""
        return not any(bits or bits is None for bits in self.undefined)


@dataclass(frozen=True)
class Block:
    """A block of the heap. `trace` has up to three addresses: where the block was allocated or, once it is freed, where it was freed."""

    address: Address
    size: int
    is_live: bool
    trace: Tuple[Address, ...]


@dataclass(frozen=True)
class Happened:
    """What a step does: `what` is "call", "return", "heap", "input" or "output". `address` is where a call or a return goes on, `depth` the
    number of frames after it or after a heap call, `count` the number of bytes that are read or written; the others are None."""

    step: int
    what: str
    address: Optional[Address] = None
    depth: Optional[int] = None
    count: Optional[int] = None


@dataclass(frozen=True)
class Certificate:
    """What `look certify` says of a run up to a step, which is proved: `text` is its line. `clean` says that nothing which uninitialised,
    freed or unmapped memory holds has any influence on the run up to there. `goes_on` says of a clean run that it has not ended by then
    and doesn't rest in a jump to itself. `first_use` is the step of the error that lets such memory in; it is None in a clean run, and
    where a mark is in the way. `asked` says whether the step was given. A certificate is true where `replaycheck certify` ends with 0: the
    run is clean, and doesn't go on unless its step was given."""

    text: str
    asked: bool = False

    def __bool__(self) -> bool:
        return self.clean and (self.asked or not self.goes_on)

    def __str__(self) -> str:
        return self.text

    @property
    def clean(self) -> bool:
        return self.text.startswith((CLEAN, CLEAN_SO_FAR))

    @property
    def goes_on(self) -> bool:
        return self.text.startswith(CLEAN_SO_FAR)

    @property
    def first_use(self) -> Optional[int]:
        is_use = self.text.startswith(FIRST_USE)
        return int(self.text[len(FIRST_USE):].partition(":")[0]) if is_use else None


def addresses(words: List[str]) -> Tuple[Address, ...]:
    return tuple(Address(word, 16) for word in words)


class Step:
    """A step of a run, before its instruction is executed. It shows the run with the edits that it has when it is asked. Registers are
    attributes by their names, too: `step.a0` is `step.registers.a0`."""

    def __init__(self, run: Run, number: int) -> None:
        self.run, self.number = run, number

    def __repr__(self) -> str:
        return f"{self.run!r}.at({self.number})"

    def __getattr__(self, name: str) -> int:
        if name in Registers._fields or name == "fp":
            return getattr(self.registers, name)
        raise AttributeError(f"{type(self).__name__!r} object has no attribute {name!r}")

    @property
    def state(self) -> State:
        """Whether the program runs, has exited or has stopped, as in a report."""
        return read_state(Lines([self.run._seen(self.number)[0]]))

    @property
    def pc(self) -> Address:
        """The address of the instruction that comes next; of a program that has ended, that of its last one."""
        found = self.state.address
        return self.run._last_pc() if found is None else found

    @property
    def function(self) -> str:
        """The name of the function at `pc`, as a report has it: `???` if there is none."""
        return self.run.function_at(self.pc)

    @property
    def registers(self) -> Registers:
        """The values of the registers."""
        return self._pairs(0)

    @property
    def undefined(self) -> Registers:
        """The undefined bits of each register: 0 if all are defined."""
        return self._pairs(1)

    def _pairs(self, index: int) -> Registers:
        rows = self.run._seen(self.number)[1:]
        return Registers(0, *(int(row.split()[1 + index], 16) for row in rows))

    @property
    def stack(self) -> Tuple[Address, ...]:
        """The address of the next instruction, and those of the calls that the program is in, newest first: at most 256 of these."""
        return addresses(self.run._at(self.number).look("stack")[0].split()[1:])

    def blocks(self, address: Place = 0) -> List[Block]:
        """Returns the blocks of the heap from an address on, in order: also freed ones, as long as their places aren't used again."""
        start = self.run._address(address)
        rows = [row.split() for row in self.run._at(self.number).listed("blocks", start)]
        return [Block(Address(row[1], 16), int(row[2]), row[3] == "live", addresses(row[4:])) for row in rows]

    def memory(self, address: Place, length: int) -> Memory:
        """Returns bytes of memory at the step.

        # Errors

        `Usage` for a range that is empty or ends above 2^32."""
        return self.run._memory(self.number, address, length)
