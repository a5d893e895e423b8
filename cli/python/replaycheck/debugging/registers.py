"""The registers that gdb is told of, and their description (gdb's manual, appendix G, RISC-V features)."""
from replaycheck.guest import rv32

NAMES = ["fp" if name == "s0" else name for name in rv32.NAMES]  # as gdb calls it
POINTERS = {"sp", "gp", "tp", "fp"}
PC = len(NAMES)
STEP = PC + 1
SHADOWS = STEP + 1  # the undefined bits of each, under Valgrind's names: a0s1 of a0
CONTROLS = SHADOWS + len(NAMES)  # the control registers that a look shows, and then the undefined bits of each

HEAD = """<?xml version="1.0"?>
<!DOCTYPE target SYSTEM "gdb-target.dtd">
<target version="1.0">
<architecture>riscv:rv32</architecture>
"""


def register(name, number, kind, group=""):
    """A register. gdb leaves one with a group of its own alone when it sets the others back behind a call of a function."""
    own = f' group="{group}" save-restore="no"' if group else ""
    return f'<reg name="{name}" bitsize="32" regnum="{number}" type="{kind}"{own}/>\n'


def feature(name, registers):
    return f'<feature name="{name}">\n{"".join(registers)}</feature>\n'


def description(controls=()):
    """What gdb is told of the registers, where there are control registers of these names."""
    plain = [register(name, number, "data_ptr" if name in POINTERS else "int") for number, name in enumerate(NAMES)]
    plain.append(register("pc", PC, "code_ptr"))
    own = [register("step", STEP, "uint32", "general")]
    own += [register(name + "s1", SHADOWS + number, "uint32", "shadow") for number, name in enumerate(NAMES)]
    own += [register(name + "s1", CONTROLS + len(controls) + number, "uint32", "shadow") for number, name in enumerate(controls)]
    parts = feature("org.gnu.gdb.riscv.cpu", plain) + feature("org.replaycheck.run", own)
    if controls:
        kept = [register(name, CONTROLS + number, "int", "csr") for number, name in enumerate(controls)]
        parts += feature("org.gnu.gdb.riscv.csr", kept)
    return HEAD + parts + "</target>\n"


def in_hexadecimal(value):
    """A register, the lowest byte first."""
    return value.to_bytes(4, "little").hex()


def value_of(number, run):
    """The value of a register by its number, where there is one, at the step of a run."""
    if number < PC:
        return run.registers().values[number]
    if number == PC:
        return run.registers().pc
    if number == STEP:
        return run.step
    if number < CONTROLS:
        return run.registers().undefined[number - SHADOWS]
    controls = run.controls()
    values = [control.value for control in controls] + [control.undefined for control in controls]
    return values[number - CONTROLS] if number - CONTROLS < len(values) else None
