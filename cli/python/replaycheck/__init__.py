"""Memcheck for static RV32IM programs, from Python: run a program, edit the run, and look at it.

    import replaycheck

    with replaycheck.Run("station.elf", input="station.input") as run:
        assert run.report().errors == []
        with run.edited("input 27 2"):
            print(run.report().errors[0].text)

The chapter "From Python" of the manual has examples. The other modules of this package belong to the tools: they change without notice.
"""
TYPE_CHECKING = False  # as of the module typing, whose import takes longer than a short run of a tool
if TYPE_CHECKING:
    from replaycheck.options import LAST_STEP
    from replaycheck.reports import Address, Frame, Leak, Note, Report, State, Sum
    from replaycheck.reports import Error as ReportedError
    from replaycheck.scripting.any_bytes import AnyCertificate
    from replaycheck.scripting.errors import Ended, Error, OutOfMemory, Refused, Unreadable, Usage
    from replaycheck.scripting.inputs import Input
    from replaycheck.scripting.runs import Run
    from replaycheck.scripting.steps import Block, Certificate, Happened, Memory, Registers, Step
    from replaycheck.scripting.sweeps import Outcome, hinders, sweep

__all__ = [
    "LAST_STEP", "Address", "AnyCertificate", "Block", "Certificate", "Ended", "Error", "Frame", "Happened", "Input", "Leak", "Memory",
    "Note", "OutOfMemory", "Outcome", "Refused", "Registers", "Report", "ReportedError", "Run", "State", "Step", "Sum", "Unreadable",
    "Usage", "hinders", "sweep"]
# Where each name is: its module is imported when the name is asked for, as the tools need none of these.
_HOMES = {
    "options": ("LAST_STEP",),
    "reports": ("Address", "Frame", "Leak", "Note", "Report", "State", "Sum"),
    "scripting.any_bytes": ("AnyCertificate",),
    "scripting.errors": ("Ended", "Error", "OutOfMemory", "Refused", "Unreadable", "Usage"),
    "scripting.inputs": ("Input",),
    "scripting.runs": ("Run",),
    "scripting.steps": ("Block", "Certificate", "Happened", "Memory", "Registers", "Step"),
    "scripting.sweeps": ("Outcome", "hinders", "sweep"),
}
_RENAMED = {"ReportedError": ("reports", "Error")}


def _found(name):
    """Imports a public name from its module."""
    module, there = _RENAMED.get(name) or next(((home, name) for home, names in _HOMES.items() if name in names), ("", ""))
    if not there:
        raise AttributeError(f"module {__name__!r} has no attribute {name!r}")
    from importlib import import_module
    globals()[name] = getattr(import_module(f"{__name__}.{module}"), there)
    return globals()[name]


def __dir__() -> "list[str]":
    return sorted({*globals(), *__all__})


if not TYPE_CHECKING:  # a checker of types has no other names than those above
    __getattr__ = _found
