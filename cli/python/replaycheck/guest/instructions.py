"""Words of RISC-V instructions: which of them are RV32IM's, where they go, and those that cures are made of."""
import functools

from . import rv32
from .rv32 import (ATOMIC, ATOMICS, BRANCH, BRANCHES, CONTROL_NUMBERS, CONTROL_REGISTERS, CONTROLS, EBREAK, ECALL, FIRST_CONSTANT, JAL,
                   JALR, LOAD_RESERVED, LOADS, LUI, MISC_MEM, NAMES, RA, SP, STORE, STORES, SYSTEM, TABLE, UNIMP, WFI, ZERO, addi, branch,
                   funct3, load, of_upper, opcode, rd, rs1, rs2, signed, store)

JUMP_REACH = 1 << 20
JUMPS = {BRANCH, JAL, JALR}
# Instructions of a set or a form, each by the bits that say so: opcode and funct3, with funct7 where that is no part of an operand.
OF_RV32IM = {(row.opcode, row.funct3, row.high) for row in TABLE if row.of in (rv32.I, rv32.M) and row.form != "word"}
PRIVILEGED = {row.word: row.name for row in TABLE if row.of in (rv32.MACHINE, rv32.PRIVILEGED)}
RETURNS = {row.name for row in TABLE if row.of == rv32.PRIVILEGED}
OF_CONTROLS = {row.funct3: row.name for row in TABLE if row.of == rv32.ZICSR}
FENCE_I = rv32.BY_NAME["fence.i"].funct3
CLOCKS = {CONTROL_NUMBERS[name] for name in ("mcycle", "minstret", "mcycleh", "minstreth", "cycle", "time", "instret", "cycleh", "timeh",
                                             "instreth")}


def is_compressed(word):
    return word & 3 != 3


@functools.lru_cache(maxsize=None)
def has_row(opcode_and_functs):
    """Whether RV32IM has instructions with this opcode, funct3 and funct7; of those that fix the whole word it tells
    nothing."""
    code, third, seventh = opcode(opcode_and_functs), funct3(opcode_and_functs), opcode_and_functs >> 25
    return not OF_RV32IM.isdisjoint({(code, third, seventh), (code, third, -1), (code, -1, -1)})


def is_of_rv32im(word):
    return has_row(word & 0xFE00707F) or word in (ECALL, EBREAK)


def is_atomic(word):
    """Whether it is an atomic instruction of RV32A. That which reserves has no second register."""
    funct5 = word >> 27
    return (opcode(word) == ATOMIC and funct3(word) == 2 and funct5 in ATOMICS.values()
            and not (funct5 == LOAD_RESERVED and rs2(word)))


def may_jump(word):
    return word & 0x7F in JUMPS


def ends(word):
    """Whether the next word isn't reached from this one: a jump that is no call."""
    return word & 0x7F in (JAL, JALR) and rd(word) == ZERO


def is_fence_i(word):
    return opcode(word) == MISC_MEM and funct3(word) == FENCE_I


def names_control(word):
    """Whether it reads or writes a control register."""
    return opcode(word) == SYSTEM and funct3(word) in OF_CONTROLS


def control(word):
    """The text of an instruction that reads or writes control registers, waits, returns from a trap or makes code that
    was written visible; None for any other."""
    if word == UNIMP:
        return None
    if word in PRIVILEGED:
        return PRIVILEGED[word]
    if word & rv32.SFENCE_MASK == rv32.SFENCE:
        return "sfence.vma"
    if is_fence_i(word):
        return "fence.i"
    if not names_control(word):
        return None
    source = NAMES[rs1(word)] if funct3(word) in CONTROLS.values() else str(rs1(word))
    register = CONTROL_REGISTERS.get(word >> 20, hex(word >> 20))
    return f"{OF_CONTROLS[funct3(word)]} {NAMES[rd(word)]},{register},{source}"


def is_control(word):
    """Whether an instruction set of the program has such an instruction: `fence.i`, `wfi` and those of control registers, but for a write
    of one that is only read. Returns from traps and the like it hasn't."""
    if word in PRIVILEGED or opcode(word) == MISC_MEM:
        return word == WFI or is_fence_i(word)
    writes = funct3(word) & 3 == CONTROLS["csrrw"] or rs1(word) != 0
    return names_control(word) and not (writes and word >> 20 >= FIRST_CONSTANT)


def reads_clock(word):
    return names_control(word) and word >> 20 in CLOCKS and rd(word) != ZERO


def sets_return(word):
    """Whether it writes a register into that which mret jumps to."""
    return opcode(word) == SYSTEM and funct3(word) == CONTROLS["csrrw"] and word >> 20 == CONTROL_NUMBERS["mepc"]


def written(word):
    """The register that an instruction writes, or zero."""
    return ZERO if opcode(word) in (STORE, BRANCH, MISC_MEM) else rd(word)


def harmless(word):
    """What takes the place of such an instruction, and its text: a register that it reads into gets 0, but for sp,
    which stays as it is."""
    to = rd(word) if opcode(word) == SYSTEM and funct3(word) and rd(word) != SP else ZERO
    return load_immediate(to, 0), f"li {NAMES[to]},0" if to else "nop"


def load_immediate(to, number):
    return addi(to, ZERO, number)


def jump_register(source, link=ZERO, number=0):
    return rv32.jump_by(link, source, number)


def load_upper(to, number):
    return of_upper(LUI, to, number)


def call(address):
    """A call of any address, by ra."""
    low = signed(address & 0xFFF, 12)
    return [load_upper(RA, address - low), jump_register(RA, RA, low)]


def load_word(to, base, number):
    return load(LOADS["lw"], to, base, number)


def store_word(source, base, number):
    return store(STORES["sw"], source, base, number)


def move(to, source):
    return addi(to, source, 0)


def branch_if_zero(register, away):
    return branch(BRANCHES["beq"], register, ZERO, away)


def jump(away):
    return rv32.jump(ZERO, away)
