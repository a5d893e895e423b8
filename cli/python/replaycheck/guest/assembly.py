"""A small assembler for the programs of tests and measurements: text of RV32IM, RV32A, Zicsr and Zifencei to words."""
import re

from .rv32 import (ATOMICS, BY_NAME, CONTROL_NUMBERS, CONTROLS, FENCE, FENCE_I, NAMES, NOP, ORDERS, addi, atomic, branch, computed, control,
                   jump, jump_by, load, load_number, of_immediate, of_upper, shift, store)

ENTRY = 0x10000  # where the usual linker scripts put the code
REGISTERS = {name: number for number in range(32) for name in (f"x{number}", NAMES[number])}
# Instructions that are written without operands.
PLAIN = {"nop": NOP, "fence": FENCE, "fence.i": FENCE_I, **{name: row.word for name, row in BY_NAME.items() if row.form == "word"}}


# ---- text


def number_of(text):
    return int(text, 0)


def control_number(text):
    """The number of a control register, by its name or by itself."""
    return CONTROL_NUMBERS[text] if text in CONTROL_NUMBERS else number_of(text)


def words_of(name, fields, away):
    """The words of one instruction. away(field) is how far a target is."""
    register = [REGISTERS.get(field) for field in fields]
    found = re.fullmatch(r"(\w+\.w)(|\.rl|\.aq|\.aqrl)", name)
    if found and found[1] in ATOMICS:
        *source, base = register[1:]  # `lr.w` has no second register
        return [atomic(ATOMICS[found[1]], register[0], base, *source or [0], ORDERS[found[2]])]
    if name == ".word":
        return [number_of(field) for field in fields]
    if name in BY_NAME and BY_NAME[name].form in ENCODERS:
        return [ENCODERS[BY_NAME[name].form](BY_NAME[name], register, fields, away)]
    return short_form(name, fields, register, away)


# The word of an instruction by the form of its operands: of its row, of the numbers of its registers, of its operands' texts, and of what
# says how far a target is.
ENCODERS = {
    "upper": lambda row, register, fields, _: of_upper(row.opcode, register[0], number_of(fields[1]) << 12),
    "jump": lambda _, register, fields, away: jump(register[0], away(fields[1])),
    "jump by": lambda _, register, fields, __: jump_by(register[0], register[2], number_of(fields[1])),
    "branch": lambda row, register, fields, away: branch(row.funct3, register[0], register[1], away(fields[2])),
    "load": lambda row, register, fields, _: load(row.funct3, register[0], register[2], number_of(fields[1])),
    "store": lambda row, register, fields, _: store(row.funct3, register[0], register[2], number_of(fields[1])),
    "immediate": lambda row, register, fields, _: of_immediate(row.funct3, register[0], register[1], number_of(fields[2])),
    "shift": lambda row, register, fields, _: shift(row.name, register[0], register[1], number_of(fields[2])),
    "registers": lambda row, register, _, __: computed(row.name, *register),
    "control": lambda row, register, fields, _: control(row.funct3, register[0], control_number(fields[1]), register[2]),
    "control immediate": lambda row, register, fields, _: control(row.funct3, register[0], control_number(fields[1]), number_of(fields[2])),
}


def short_form(name, fields, register, away):
    """The words of an instruction that has no fields, or is short for others."""
    if name == "li":
        number = number_of(fields[1])
        return [addi(register[0], 0, number)] if -2048 <= number < 2048 else load_number(register[0],
                                                                                         number & 0xFFFFFFFF)
    if name == "mv":
        return [addi(register[0], register[1], 0)]
    if name == "j":
        return [jump(0, away(fields[0]))]
    if name == "csrr":
        return [control(CONTROLS["csrrs"], register[0], control_number(fields[1]), 0)]
    if name == "csrw":
        return [control(CONTROLS["csrrw"], 0, control_number(fields[0]), register[1])]
    if name in PLAIN:
        return [PLAIN[name]]
    raise ValueError(f"no instruction {name}")


class Unknown(dict):
    """Labels, of which those that aren't known yet stand anywhere."""

    def __missing__(self, name):
        return ENTRY


def pass_over(pieces, labels):
    """The words of all pieces. Labels are entered on the way."""
    words = []
    for piece in pieces:
        times, label, name, rest = re.fullmatch(r"(?:(\d+) \* )?(?:(\w+):\s*)?(\S+)?(.*)", piece).groups()
        if label:
            labels[label] = ENTRY + 4 * len(words)
        for _ in range(int(times or 1) if name else 0):
            here = ENTRY + 4 * len(words)

            def away(target):
                if target.startswith("."):
                    return number_of(target[1:])
                return (number_of(target) if target[0].isdigit() else labels[target]) - here

            words += words_of(name, re.findall(r"[^\s,()]+", rest), away)
    return words


def assemble(text, labels=()):
    """The words of instructions, which stand at ENTRY: between newlines or semicolons, each with a label before it
    (`again:`) or a number of times (`3 * nop`). A target is a label, a distance (`.+8`) or an address."""
    pieces = [piece.strip() for piece in re.split(r"[;\n]", text) if piece.strip()]
    places = Unknown(labels)
    pass_over(pieces, places)
    return pass_over(pieces, dict(places))
