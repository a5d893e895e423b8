"""Which other instruction set has what a program's file needs: for what is said of a run that has stopped."""
from replaycheck.endings import Fault
from replaycheck.programs import ISAS, SHORT, USUAL, isa_for


def set_with_all(file, isa):
    """Returns the instruction set that has all instructions that were found in a file, where the given one lacks some; else None."""
    from replaycheck.adopting.findings import Findings  # it looks at all code: only after a stop
    from replaycheck.guest.instructions import is_control
    asked = isa_for(file) if isa == USUAL else None
    try:
        with open(file, "rb") as opened:
            found = Findings(opened.read(1 << 26), {}, set(), isa)
    except (OSError, Fault, ValueError, IndexError):
        return asked
    needed = SHORT if isa == USUAL and any(is_control(instruction.word) for instruction in found.control) else isa
    best = max((candidate for candidate in (asked, found.isa, needed) if candidate), key=ISAS.index)
    return best if ISAS.index(best) > ISAS.index(isa) else None


def hint(file, isa):
    """Returns what to say of a run that has stopped at an instruction under an instruction set, if another one has it; else nothing."""
    other = set_with_all(file, isa)
    if other is None:
        return ""
    if isa == USUAL and isa_for(file):
        return f"The file has instructions of 16 bits: --isa {other} reads it for them"
    return f"The file has instructions that {isa} doesn't have: --isa {other} runs them"
