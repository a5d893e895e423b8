"""16-bit instructions of RISC-V as binutils' disassembler reads them, for test-halves and test-profiles.

Each half is disassembled without aliases. Its text gives an instruction of 32 bits by what sections 16.3 to 16.5 of the RISC-V Unprivileged
ISA 20191213 say of its name."""
import dataclasses
import re
import struct
import subprocess
import tempfile

from replaycheck.guest.rv32 import addi, branch, jump, load, of_immediate, of_registers, store

OBJDUMP = "riscv64-unknown-elf-objdump"
HALVES = range(2**16)
REGISTERS = "zero ra sp gp tp t0 t1 t2 s0 s1 a0 a1 a2 a3 a4 a5 a6 a7 s2 s3 s4 s5 s6 s7 s8 s9 s10 s11 t3 t4 t5 t6".split()
# What binutils knows and stands for nothing here: loads and stores of floating point, and the half 0, which is illegal (section 16.2).
LEFT_OUT = "c.flw c.fsw c.fld c.fsd c.flwsp c.fswsp c.fldsp c.fsdsp c.unimp".split()


@dataclasses.dataclass(frozen=True)
class Insn:
    """An instruction of 32 bits: its operation, and its operands; 0 for those that it lacks, and immediates modulo 2^32."""

    op: str
    rd: int = 0
    rs1: int = 0
    rs2: int = 0
    imm: int = 0

    def word(self) -> int:
        """Its word."""
        match self.op:
            case "Lui":
                return self.imm | self.rd << 7 | 0x37
            case "Jal":
                return jump(self.rd, self.imm)
            case "Jalr":
                return load(0, self.rd, self.rs1, self.imm) | 0x64
            case "Beq" | "Bne":
                return branch(int(self.op == "Bne"), self.rs1, self.rs2, self.imm)
            case "Lw":
                return load(2, self.rd, self.rs1, self.imm)
            case "Sw":
                return store(2, self.rs2, self.rs1, self.imm)
            case "Addi":
                return addi(self.rd, self.rs1, self.imm)
            case "Andi" | "Slli" | "Srli" | "Srai":
                funct3 = {"Andi": 7, "Slli": 1}.get(self.op, 5)
                return of_immediate(funct3, self.rd, self.rs1, self.imm | (0x400 if self.op == "Srai" else 0))
            case "Ebreak":
                return 0x00100073
        funct3 = {"Xor": 4, "Or": 6, "And": 7}.get(self.op, 0)
        return of_registers(0x20 if self.op == "Sub" else 0, funct3, self.rd, self.rs1, self.rs2)


def disassembled() -> dict[int, tuple[int, str, list[str]]]:
    """For each half that doesn't begin a longer instruction, the address at which it was read, its name and its operands."""
    halves = [half for half in HALVES if half & 3 != 3]
    with tempfile.NamedTemporaryFile(suffix=".bin") as file:
        file.write(b"".join(struct.pack("<H", half) for half in halves))
        file.flush()
        command = [OBJDUMP, "-D", "-z", "-b", "binary", "-m", "riscv:rv32", "-M", "no-aliases", file.name]
        told = subprocess.run(command, stdout=subprocess.PIPE, text=True, check=True).stdout
    found = {}
    for at, half, name, operands in re.findall(r"^ *([0-9a-f]+):\t([0-9a-f]{4}) +\t(\S+)\t?(\S*)(?: # .*)?$", told, re.M):
        found[int(half, 16)] = (int(at, 16), name, operands.split(",") if operands else [])
    if list(found) != halves:
        raise ValueError(f"{len(found)} of {len(halves)} halves are in the output of {OBJDUMP}")
    return found


def register(text: str) -> int:
    return REGISTERS.index(text)


def immediate(text: str) -> int:
    return int(text, 0) % 2**32


def upper(text: str) -> int:
    return (int(text, 0) << 12) % 2**32


def place(text: str) -> tuple[int, int]:
    """The register and the offset of `offset(register)`."""
    found = re.fullmatch(r"(\d+)\((\w+)\)", text)
    return register(found[2]), int(found[1])


def by_text(at: int, name: str, operands: list[str]) -> Insn | None:
    """The instruction that a half at this address stands for, by binutils' text of it."""
    if not name.startswith("c.") or name in LEFT_OUT:
        return None
    base = name.removeprefix("c.")
    match base:
        case "addi4spn":
            return Insn("Addi", register(operands[0]), 2, 0, immediate(operands[2]))
        case "addi16sp":
            # Reserved by 0 (section 16.5).
            return Insn("Addi", 2, 2, 0, immediate(operands[1])) if immediate(operands[1]) else None
        case "addi" | "andi":
            return Insn(base.capitalize(), register(operands[0]), register(operands[0]), 0, immediate(operands[1]))
        case "slli" | "srli" | "srai":
            # By 32 or more not standard in RV32C (section 16.5).
            amount = immediate(operands[1])
            return Insn(base.capitalize(), register(operands[0]), register(operands[0]), 0, amount) if amount < 32 else None
        case "slli64" | "srli64" | "srai64":
            # By 0 a hint in RV32C (section 16.7): the shift by 0.
            return Insn(base[:4].capitalize(), register(operands[0]), register(operands[0]), 0, 0)
        case "li":
            return Insn("Addi", register(operands[0]), 0, 0, immediate(operands[1]))
        case "lui":
            return Insn("Lui", register(operands[0]), 0, 0, upper(operands[1]))
        case "sub" | "xor" | "or" | "and" | "add":
            return Insn(base.capitalize(), register(operands[0]), register(operands[0]), register(operands[1]), 0)
        case "mv":
            return Insn("Add", register(operands[0]), 0, register(operands[1]), 0)
        case "lw" | "lwsp":
            start, offset = place(operands[1])
            return Insn("Lw", register(operands[0]), start, 0, offset)
        case "sw" | "swsp":
            start, offset = place(operands[1])
            return Insn("Sw", 0, start, register(operands[0]), offset)
        case "j" | "jal":
            return Insn("Jal", int(base == "jal"), 0, 0, (int(operands[0], 0) - at) % 2**32)
        case "jr" | "jalr":
            return Insn("Jalr", int(base == "jalr"), register(operands[0]), 0, 0)
        case "beqz" | "bnez":
            return Insn(base[:3].capitalize(), 0, register(operands[0]), 0, (int(operands[1], 0) - at) % 2**32)
        case "ebreak":
            return Insn("Ebreak")
    raise ValueError(f"{name} {operands} is no instruction of RV32C")


def expansions() -> dict[int, Insn]:
    """The halves that stand for an instruction, each with that."""
    found = {half: by_text(*text) for half, text in disassembled().items()}
    return {half: insn for half, insn in found.items() if insn}
