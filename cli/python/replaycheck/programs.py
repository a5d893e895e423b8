"""Which program the tools run, and how they name files to it."""
import os

from replaycheck.endings import Fault

# The folder above that of the launcher: of the repository, or of a release, which says from which commit it was built and has the program
# itself.
TOP = os.path.realpath(f"{__file__}/../../../..")
BUILT_FROM = f"{TOP}/built-from"
PROGRAM = f"{TOP}/replaycheck" if os.path.exists(BUILT_FROM) else f"{TOP}/crates/replaycheck/out/replaycheck"
# The instruction sets that the program has, by their names for its option `--isa`: the usual one, one with instructions of 16 bits, and one
# that has also atomic instructions.
ISAS = USUAL, SHORT, ATOMIC = ("rv32im", "rv32imc", "rv32imac")


class Built:
    """Whether this process has seen to it that this repository's program is built."""

    is_current = False


def program():
    """The path of the program that REPLAYCHECK names, or else of this repository's, which is built first where it has
    to be. Each process looks at that once."""
    named = os.environ.get("REPLAYCHECK")
    if named:
        return named
    if not Built.is_current and not os.path.exists(BUILT_FROM):
        from replaycheck.children import started
        if started([f"{TOP}/build/build"], (0, 1, 2), ()).wait():
            raise Fault("the program isn't built")
    Built.is_current = True
    return PROGRAM


def built_program():
    """The path of the program that REPLAYCHECK names, or else of the one that was built last: none is built here."""
    named = os.environ.get("REPLAYCHECK")
    if not named and not os.path.exists(PROGRAM):
        raise Fault(f"{PROGRAM}: it isn't built: `{TOP}/replaycheck --version` proves and builds it, and REPLAYCHECK names another one")
    return named or PROGRAM


def tool(variable, names):
    """The program of others that a variable of the environment names, or else the first of some names that is on the path; the first of
    all if none is."""
    folders = os.environ.get("PATH", os.defpath).split(os.pathsep)
    there = (name for name in names if any(os.access(os.path.join(folder, name), os.X_OK) for folder in folders))
    return os.environ.get(variable) or next(there, names[0])


def isa_words(isa):
    """The option of the program for an instruction set: none for the usual one."""
    return [] if isa == USUAL else [f"--isa={isa}"]


def unit_of(isa):
    """How many bytes the shortest instruction of a set has: each is at a multiple of that."""
    return 4 if isa == USUAL else 2


def path_of(path):
    """A path as a text that the program doesn't take for an option."""
    path = os.fsdecode(path)
    return "./" + path if path.startswith("-") else path


def isa_for(file):
    """The instruction set that a file's flags and attributes ask for, where it isn't the usual one: bit 0 of e_flags stands for
    instructions of 16 bits, and the attributes have a text such as `rv32i2p1_m2p0_a2p1_c2p0` (RISC-V ELF psABI)."""
    try:
        with open(file, "rb") as opened:
            data = opened.read(1 << 24)
    except OSError:
        return None
    if len(data) < 40 or not data[36] & 1:
        return None
    at = data.find(b"rv32i", data.rfind(b"riscv\0"))
    return ATOMIC if at >= 0 and b"_a" in data[at:data.find(b"\0", at)] else SHORT
