"""16-bit instructions, each as the word of the 32-bit instruction that it stands for (RISC-V Unprivileged ISA 20191213, chapter 16)."""
from __future__ import annotations

from typing import Optional

from .rv32 import (BRANCHES, BY_NAME, EBREAK, LOADS, LUI, RA, SP, STORES, addi, branch, computed, jump, jump_by, load, of_immediate,
                   of_upper, shift, store)

NOP, MOVE, NUMBER = 0x0001, 0x8002, 0x4001  # c.nop, c.mv and c.li, without their operands
MOST = 31  # the greatest number of c.li
# The bits of an immediate, each by its place in the half, and the place that it has in the number. The first one may be the sign.
SPACE = ((12, 5), (11, 4), (10, 9), (9, 8), (8, 7), (7, 6), (6, 2), (5, 3))
OF_WORD = ((5, 6), (12, 5), (11, 4), (10, 3), (6, 2))
JUMP = ((12, 11), (8, 10), (10, 9), (9, 8), (6, 7), (7, 6), (2, 5), (11, 4), (5, 3), (4, 2), (3, 1))
BRANCH = ((12, 8), (6, 7), (5, 6), (2, 5), (11, 4), (10, 3), (4, 2), (3, 1))
SIX = ((12, 5), (6, 4), (5, 3), (4, 2), (3, 1), (2, 0))
FRAME = ((12, 9), (4, 8), (3, 7), (5, 6), (2, 5), (6, 4))
FROM_STACK = ((3, 7), (2, 6), (12, 5), (6, 4), (5, 3), (4, 2))
TO_STACK = ((8, 7), (7, 6), (12, 5), (11, 4), (10, 3), (9, 2))
IMMEDIATES = {"SPACE": SPACE, "OF_WORD": OF_WORD, "JUMP": JUMP, "BRANCH": BRANCH, "SIX": SIX, "FRAME": FRAME, "FROM_STACK": FROM_STACK,
              "TO_STACK": TO_STACK}
# What computes with two registers, by bits 6 and 5.
BETWEEN = ("sub", "xor", "or", "and")


def is_half(parcel: int) -> bool:
    """Whether the low two bits say that an instruction has 16 bits."""
    return parcel & 3 != 3


def number(half: int, bits: tuple[tuple[int, int], ...]) -> int:
    return sum((half >> place & 1) << to for place, to in bits)


def signed(half: int, bits: tuple[tuple[int, int], ...]) -> int:
    """A number whose highest bit is the sign."""
    value, top = number(half, bits), bits[0][1]
    return value - (2 << top) if value >> top else value


def expanded(half: int) -> Optional[int]:
    """The word of the 32-bit instruction that a half stands for; None of a half that stands for none without floating point."""
    return (of_quadrant_0, of_quadrant_1, of_quadrant_2, lambda _: None)[half & 3](half)


def of_quadrant_0(half: int) -> Optional[int]:
    base, register = 8 + (half >> 7 & 7), 8 + (half >> 2 & 7)
    code = half >> 13
    if code == 0:
        space = number(half, SPACE)
        return addi(register, SP, space) if space else None
    if code == 2:
        return load(LOADS["lw"], register, base, number(half, OF_WORD))
    return store(STORES["sw"], register, base, number(half, OF_WORD)) if code == 6 else None


def of_quadrant_1(half: int) -> Optional[int]:
    code, register, six = half >> 13, half >> 7 & 31, signed(half, SIX)
    if code == 0:
        return addi(register, register, six)
    if code in (1, 5):
        return jump(RA if code == 1 else 0, signed(half, JUMP))
    if code == 2:
        return addi(register, 0, six)
    if code == 3 and register == SP:
        space = signed(half, FRAME)
        return addi(SP, SP, space) if space else None
    if code == 3:
        return of_upper(LUI, register, six << 12) if six else None
    if code == 4:
        return of_two(half, 8 + (half >> 7 & 7), six)
    return branch(BRANCHES["bne" if code & 1 else "beq"], 8 + (half >> 7 & 7), 0, signed(half, BRANCH))


def of_two(half: int, register: int, six: int) -> Optional[int]:
    """What computes with a register that it changes: shifts to the right, AND with a number, and operations on two registers."""
    kind, has_more = half >> 10 & 3, half >> 12 & 1
    if kind == 2:
        return of_immediate(BY_NAME["andi"].funct3, register, register, six)
    if has_more:
        return None
    if kind < 2:
        return shift("srai" if kind else "srli", register, register, half >> 2 & 31)
    return computed(BETWEEN[half >> 5 & 3], register, register, 8 + (half >> 2 & 7))


def of_quadrant_2(half: int) -> Optional[int]:
    code, register, other, has_more = half >> 13, half >> 7 & 31, half >> 2 & 31, half >> 12 & 1
    if code == 0:
        return None if has_more else shift("slli", register, register, other)
    if code == 2:
        return load(LOADS["lw"], register, SP, number(half, FROM_STACK)) if register else None
    if code == 6:
        return store(STORES["sw"], other, SP, number(half, TO_STACK))
    if code != 4:
        return None
    if other:
        return computed("add", register, register if has_more else 0, other)
    if not register:
        return EBREAK if has_more else None
    return jump_by(RA if has_more else 0, register, 0)
