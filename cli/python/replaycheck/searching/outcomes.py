"""What compares come out as: which way a branch goes, and the value that another compare puts into a register."""
from __future__ import annotations

from typing import Callable, Dict, List, Optional, Set, Tuple

from replaycheck.guest import rv32
from replaycheck.guest.code import Code
from replaycheck.guest.rv32 import BRANCH, IMMEDIATE, REGISTERS, funct3, immediate, opcode, signed

from .tries import Pair

# By the bits funct3 of an instruction: of a branch, and of slt, slti, sltu and sltiu.
BRANCHES: Dict[int, Callable] = {rv32.BRANCHES[name]: condition for name, condition in (
    ("beq", lambda a, b: a == b), ("bne", lambda a, b: a != b), ("blt", lambda a, b: signed(a, 32) < signed(b, 32)),
    ("bge", lambda a, b: signed(a, 32) >= signed(b, 32)), ("bltu", lambda a, b: a < b), ("bgeu", lambda a, b: a >= b))}
EQUAL, LESS, NOT_LESS, LESS_UNSIGNED = (BRANCHES[rv32.BRANCHES[name]] for name in ("beq", "blt", "bge", "bltu"))
SETS = {rv32.BY_NAME["slt"].funct3: LESS, rv32.BY_NAME["sltu"].funct3: LESS_UNSIGNED}
SIGNED = (LESS, NOT_LESS)


class Comparing:
    """How an instruction compares: the condition of its operands by which it branches, or which it puts into a register. One that isn't
    known, as the file doesn't have it, is taken for a branch. One that `is_zero` has 0 for its second operand: it compares a number with 1
    to see whether that is 0."""

    __slots__ = ("condition", "is_branch", "is_signed", "is_zero")

    def __init__(self, word: Optional[int]):
        self.is_branch = word is None or opcode(word) == BRANCH
        self.condition: Optional[Callable] = None
        self.is_zero = False
        if word is None:
            self.condition = lambda a, b: (a, b)  # which is another one for each pair of operands
        elif self.is_branch:
            self.condition = BRANCHES.get(funct3(word))
        elif opcode(word) in (IMMEDIATE, REGISTERS):
            self.condition = SETS.get(funct3(word))
            self.is_zero = opcode(word) == IMMEDIATE and self.condition == LESS_UNSIGNED and immediate(word) == 1
        self.is_signed = self.condition in SIGNED
        if self.is_zero:
            self.condition = EQUAL


class Comparisons:
    """How the instructions of a program compare, and the values that those which are no branches have put into registers."""

    def __init__(self, code: Code):
        self.code = code
        self.known: Dict[int, Comparing] = {}
        self.values: Set[Tuple[int, bool]] = set()

    def at(self, address: int) -> Comparing:
        if address not in self.known:
            instruction = self.code.instruction(address)
            self.known[address] = Comparing(None if instruction is None else instruction.word)
        return self.known[address]

    def take(self, pairs: List[Pair]) -> bool:
        """Takes the compares of two runs. Returns whether the second run puts a value into a register that a compare has put there in no
        run before."""
        is_new = False
        for pair in pairs:
            compare = self.at(pair.pc)
            if compare.is_branch or compare.condition is None:
                continue
            if compare.is_zero:
                pair.mine[1] = pair.others[1] = 0
            self.values.add((pair.pc, compare.condition(*pair.mine)))
            value = (pair.pc, compare.condition(*pair.others))
            is_new = is_new or value not in self.values
            self.values.add(value)
        return is_new

    def has_open_value(self, address: int) -> bool:
        """Whether a compare may put a value into a register that isn't known."""
        compare = self.at(address)
        return not compare.is_branch and compare.condition is not None and not {(address, False), (address, True)} <= self.values

    def part_ways(self, pair: Pair) -> bool:
        """Whether the two runs continue at different places after a compare."""
        compare = self.at(pair.pc)
        return compare.is_branch and compare.condition is not None and compare.condition(*pair.mine) != compare.condition(*pair.others)

    def parting(self, pairs: List[Pair]) -> Optional[Pair]:
        """The compare after which two runs continue at different places."""
        return next((pair for pair in pairs if self.part_ways(pair)), None)
