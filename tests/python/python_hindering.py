"""Which edits are in the way of a clean run's guarantee, by `import replaycheck`, for tests/python/test-python."""
from __future__ import annotations

from typing import Callable

import replaycheck
from replaycheck.guest.assembly import assemble
from guest_files import elf
from rows import Rows

# It uses nothing that is uninitialised, and goes on for long enough.
PLAIN = "nop; nop; nop; nop; nop; nop; li a7, 93; li a0, 0; ecall"
STEP = 5
HEAP, OTHER_HEAP, ELSEWHERE = 0x40000000, 0x20000000, 0x7FFFFF00
# Edits of each kind at its edges. What is right is what the program says of a run with each.
EDITS = [
    "skip 1", "skip 1; skip 2", "set 1 x5 0x0", "set 1 x5 5 0xffffffff", "set 1 x5 5 0xfffffffe", "set 1 pc 0x10008", "flip 1 x5 1",
    "flip 1 pc 0x4", f"flip 1 0x{ELSEWHERE:08x} 0x00000001", "flip 1 0x00010004 0x00100000; flip 2 0x00010004 0x00100000",
    f"write 1 0x{ELSEWHERE:x} 4 0", "patch 0x10004 0x13", "flip 1 x6 1; set 2 x5 1",
    *(f"mark 1 0x{at:x} {length} {kind}" for kind in ("defined", "undefined", "noaccess") for at, length in (
        (ELSEWHERE, 16), (HEAP, 1), (HEAP + 0x1FFFFFFF, 1), (HEAP + 0x20000000, 4), (HEAP - 4, 4), (HEAP - 4, 5), (OTHER_HEAP, 16)))]
NO_EDITS = ["", "report", "skip", "goto 3", "mark 1 x 4 defined", "mark 1 0x10", "set 1", "set 1 x5 1 y"]


def raises_usage(action: Callable[[], object]) -> bool:
    try:
        action()
    except replaycheck.Usage:
        return True
    return False


def test_hindering(rows: Rows) -> None:
    """What `hinders` says of edits is what the program says of a run with each."""
    for isa in ("rv32im", "rv32imc", "rv32imac"):
        for heap in (HEAP, OTHER_HEAP):
            with replaycheck.Run(elf(assemble(PLAIN)), isa=isa, heap_region=heap) as run:
                wrong = []
                for edit in EDITS:
                    with run.edited(*edit.split("; ")):
                        said = run.certify(STEP)
                    if replaycheck.hinders(edit, isa=isa, heap_region=heap) != said.text.startswith("not clean: mark "):
                        wrong.append(f"{edit}: {said}")
                rows.row(f"edits in the way of a clean run for {isa}, heap at 0x{heap:x}", wrong)
    for text in NO_EDITS:
        rows.row(f"no edit: {text!r}", [] if raises_usage(lambda text=text: replaycheck.hinders(text)) else ["no `Usage`"])
    for label, more in (("an instruction set", {"isa": "rv64"}), ("a heap", {"heap_region": 3})):
        rows.row(f"`hinders` for {label} that there isn't",
                 [] if raises_usage(lambda more=more: replaycheck.hinders("skip 1", **more)) else ["no `Usage`"])
