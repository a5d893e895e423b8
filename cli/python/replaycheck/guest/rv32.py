"""RV32: the one table of instructions, registers and control registers, from which the decoder of the tools, the assembler of the tests and
the texts of the page come, and the fields of words. Sources: RISC-V Unprivileged ISA 20191213, chapters 2, 3, 7 to 9 and 24, and Privileged
Architecture 20190608, chapter 2."""
from __future__ import annotations

import collections

# The opcodes.
LOAD, MISC_MEM, IMMEDIATE, AUIPC, STORE, ATOMIC, REGISTERS, LUI, BRANCH, JALR, JAL, SYSTEM = (
    0x03, 0x0F, 0x13, 0x17, 0x23, 0x2F, 0x33, 0x37, 0x63, 0x67, 0x6F, 0x73)
FLOAT = (0x07, 0x27, 0x43, 0x47, 0x4B, 0x4F, 0x53)
# The instruction sets in which an instruction is: the base, and its extensions. PRIVILEGED is what only a trap handler has.
I, M, A, ZICSR, ZIFENCEI, MACHINE, PRIVILEGED = "I", "M", "A", "Zicsr", "Zifencei", "machine mode", "privileged"

# An instruction: its name, what its operands are, its opcode, its set, funct3 or -1 if it is part of the operands or of `word`, and funct7
# or -1; of an atomic one funct5, bits 31 to 27. `word` has all bits of an instruction without operands.
Row = collections.namedtuple("Row", "name form opcode of funct3 high word", defaults=(I, -1, -1, -1))


def rows(form: str, opcode: int, of: str, names: str, high: int = -1, numbers: tuple[int, ...] = tuple(range(8))) -> list[Row]:
    """Rows that differ by funct3 only."""
    return [Row(name, form, opcode, of, funct3, high) for funct3, name in zip(numbers, names.split())]


def words(of: str, **by_name: int) -> list[Row]:
    """Rows of instructions without operands."""
    return [Row(name, "word", word & 0x7F, of, word=word) for name, word in by_name.items()]


# funct5 of atomic instructions.
UPDATES = {"amoadd.w": 0, "amoswap.w": 1, "amoxor.w": 4, "amoor.w": 8, "amoand.w": 12, "amomin.w": 16, "amomax.w": 20, "amominu.w": 24,
           "amomaxu.w": 28}
LOAD_RESERVED, STORE_CONDITIONAL = 2, 3
TABLE: tuple[Row, ...] = (
    Row("lui", "upper", LUI), Row("auipc", "upper", AUIPC), Row("jal", "jump", JAL), Row("jalr", "jump by", JALR, I, 0),
    *rows("branch", BRANCH, I, "beq bne blt bge bltu bgeu", numbers=(0, 1, 4, 5, 6, 7)),
    *rows("load", LOAD, I, "lb lh lw lbu lhu", numbers=(0, 1, 2, 4, 5)), *rows("store", STORE, I, "sb sh sw"),
    *rows("immediate", IMMEDIATE, I, "addi slti sltiu xori ori andi", numbers=(0, 2, 3, 4, 6, 7)),
    *rows("shift", IMMEDIATE, I, "slli srli", 0, (1, 5)), *rows("shift", IMMEDIATE, I, "srai", 0x20, (5,)),
    *rows("registers", REGISTERS, I, "add sll slt sltu xor srl or and", 0), *rows("registers", REGISTERS, I, "sub sra", 0x20, (0, 5)),
    Row("fence", "fence", MISC_MEM, I, 0), *words(I, ecall=0x00000073, ebreak=0x00100073),
    *rows("registers", REGISTERS, M, "mul mulh mulhsu mulhu div divu rem remu", 1),
    Row("lr.w", "reserve", ATOMIC, A, 2, LOAD_RESERVED), Row("sc.w", "update", ATOMIC, A, 2, STORE_CONDITIONAL),
    *(Row(name, "update", ATOMIC, A, 2, high) for name, high in UPDATES.items()),
    *rows("control", SYSTEM, ZICSR, "csrrw csrrs csrrc", numbers=(1, 2, 3)),
    *rows("control immediate", SYSTEM, ZICSR, "csrrwi csrrsi csrrci", numbers=(5, 6, 7)),
    Row("fence.i", "fence", MISC_MEM, ZIFENCEI, 1), *words(MACHINE, wfi=0x10500073),
    *words(PRIVILEGED, mret=0x30200073, sret=0x10200073, uret=0x00200073, dret=0x7B200073))
BY_NAME: dict[str, Row] = {row.name: row for row in TABLE}
# The bits aq and rl of an atomic instruction, by what its name ends with.
ORDERS = {"": 0, ".rl": 1, ".aq": 2, ".aqrl": 3}

NAMES = ["zero", "ra", "sp", "gp", "tp", "t0", "t1", "t2", "s0", "s1", *(f"a{i}" for i in range(8)), *(f"s{i}" for i in range(2, 12)),
         *(f"t{i}" for i in range(3, 7))]
ZERO, RA, SP, T1, A0, A1, A2, A7 = 0, 1, 2, 6, 10, 11, 12, 17
# The control registers with a name here, by their numbers; those from FIRST_CONSTANT on are only read.
CONTROL_REGISTERS: dict[int, str] = {
    0x001: "fflags", 0x002: "frm", 0x003: "fcsr", 0x300: "mstatus", 0x301: "misa", 0x302: "medeleg", 0x303: "mideleg",
    0x304: "mie", 0x305: "mtvec", 0x306: "mcounteren", 0x310: "mstatush", 0x320: "mcountinhibit", 0x340: "mscratch",
    0x341: "mepc", 0x342: "mcause", 0x343: "mtval", 0x344: "mip", 0xB00: "mcycle", 0xB02: "minstret", 0xB80: "mcycleh",
    0xB82: "minstreth", 0xC00: "cycle", 0xC01: "time", 0xC02: "instret", 0xC80: "cycleh", 0xC81: "timeh",
    0xC82: "instreth", 0xF11: "mvendorid", 0xF12: "marchid", 0xF13: "mimpid", 0xF14: "mhartid",
    **{0x3A0 + i: f"pmpcfg{i}" for i in range(4)}, **{0x3B0 + i: f"pmpaddr{i}" for i in range(16)}}
CONTROL_NUMBERS: dict[str, int] = {name: number for number, name in CONTROL_REGISTERS.items()}
FIRST_CONSTANT = 0xC00

ECALL, EBREAK, WFI, MRET = (BY_NAME[name].word for name in ("ecall", "ebreak", "wfi", "mret"))
NOP = 0x00000013
FENCE, FENCE_I = 0x0FF0000F, 0x0000100F  # fence iorw,iorw
UNIMP = 0xC0001073  # a write of cycle, which is only read
SFENCE, SFENCE_MASK = 0x12000073, 0xFE007FFF  # sfence.vma, and the bits that say so


def of_form(form: str) -> dict[str, int]:
    """Returns funct3 of the instructions whose operands have a form, by their names."""
    return {row.name: row.funct3 for row in TABLE if row.form == form}


def by_number(form: str) -> dict[int, str]:
    """Returns the names of the instructions whose operands have a form, by funct3 and what is fixed above it: funct7 or funct5 times 8."""
    return {max(row.high, 0) << 3 | row.funct3: row.name for row in TABLE if row.form == form}


LOADS, STORES, BRANCHES, CONTROLS, CONTROL_IMMEDIATES = (
    of_form(form) for form in ("load", "store", "branch", "control", "control immediate"))
ATOMICS = {row.name: row.high for row in TABLE if row.of == A}


# ---- words of fields


def addi(to: int, source: int, number: int) -> int:
    return (number & 0xFFF) << 20 | source << 15 | to << 7 | IMMEDIATE


def of_registers(funct7: int, third: int, to: int, left: int, right: int) -> int:
    return funct7 << 25 | right << 20 | left << 15 | third << 12 | to << 7 | REGISTERS


def of_immediate(third: int, to: int, source: int, number: int) -> int:
    return addi(to, source, number) | third << 12


def shift(name: str, to: int, source: int, amount: int) -> int:
    row = BY_NAME[name]
    return of_immediate(row.funct3, to, source, amount | row.high << 5)


def computed(name: str, to: int, left: int, right: int) -> int:
    """An instruction on two registers, by its name."""
    row = BY_NAME[name]
    return of_registers(row.high, row.funct3, to, left, right)


def load(third: int, to: int, base: int, offset: int) -> int:
    return (offset & 0xFFF) << 20 | base << 15 | third << 12 | to << 7 | LOAD


def store(third: int, source: int, base: int, offset: int) -> int:
    return (offset >> 5 & 0x7F) << 25 | source << 20 | base << 15 | third << 12 | (offset & 0x1F) << 7 | STORE


def branch(third: int, left: int, right: int, offset: int) -> int:
    high = (offset >> 12 & 1) << 31 | (offset >> 5 & 0x3F) << 25
    return high | right << 20 | left << 15 | third << 12 | (offset >> 1 & 0xF) << 8 | (offset >> 11 & 1) << 7 | BRANCH


def jump(to: int, offset: int) -> int:
    high = (offset >> 20 & 1) << 31 | (offset >> 1 & 0x3FF) << 21 | (offset >> 11 & 1) << 20
    return high | (offset >> 12 & 0xFF) << 12 | to << 7 | JAL


def jump_by(to: int, base: int, offset: int) -> int:
    """jalr."""
    return (offset & 0xFFF) << 20 | base << 15 | to << 7 | JALR


def of_upper(code: int, to: int, number: int) -> int:
    """lui or auipc, by its opcode; the low 12 bits of the number don't count."""
    return number & 0xFFFFF000 | to << 7 | code


def load_number(register: int, number: int) -> list[int]:
    """lui and addi."""
    return [of_upper(LUI, register, number + 0x800), addi(register, register, number)]


def atomic(funct5: int, to: int, base: int, source: int = 0, order: int = 0) -> int:
    return funct5 << 27 | order << 25 | source << 20 | base << 15 | 2 << 12 | to << 7 | ATOMIC


def control(third: int, to: int, number: int, operand: int) -> int:
    """An instruction of the control register of a number, with a register or an immediate of five bits."""
    return number << 20 | operand << 15 | third << 12 | to << 7 | SYSTEM


# ---- fields of words


def opcode(word: int) -> int:
    return word & 0x7F


def rd(word: int) -> int:
    return word >> 7 & 31


def rs1(word: int) -> int:
    return word >> 15 & 31


def rs2(word: int) -> int:
    return word >> 20 & 31


def funct3(word: int) -> int:
    return word >> 12 & 7


def signed(number: int, bits: int) -> int:
    return number - (1 << bits) if number >> bits - 1 else number


def immediate(word: int) -> int:
    """That of addi, jalr and loads."""
    return signed(word >> 20, 12)


def store_offset(word: int) -> int:
    return signed(word >> 25 << 5 | rd(word), 12)


def upper(word: int) -> int:
    """That of lui and auipc."""
    return word & 0xFFFFF000


def branch_offset(word: int) -> int:
    """How far a branch or jal goes."""
    if opcode(word) == JAL:
        high = word >> 31 << 20 | (word >> 12 & 0xFF) << 12
        return signed(high | (word >> 20 & 1) << 11 | (word >> 21 & 0x3FF) << 1, 21)
    high = word >> 31 << 12 | (word >> 7 & 1) << 11
    return signed(high | (word >> 25 & 0x3F) << 5 | (word >> 8 & 15) << 1, 13)
