"""Patches of words and halves, atomic instructions, control registers and regions, by `import replaycheck`, for test-python."""
from __future__ import annotations

import random
from typing import Callable

import replaycheck
from guest_files import ENTRY, elf
from replaycheck.scripting.scenarios import Scenario
from rows import Rows
from tool_rows import COUNTED, KEPT, atomic_file, placed_file

SIZE, TURNS = 16, 500


def refusal(action: Callable[[], None]) -> int | None:
    """The number with which an action is rejected, None where it isn't."""
    try:
        action()
    except replaycheck.Refused as fault:
        return fault.number
    return None


def differs(what: str, found: object, wanted: object) -> list[str]:
    return [] if found == wanted else [f"{what}: {found!r}, and not {wanted!r}"]


def test_halves(rows: Rows, data: bytes) -> None:
    """Patches of two bytes. For the usual set there are none; for rv32imc, if the program has them, they are taken back."""
    with replaycheck.Run(data) as run:
        rows.row("a half for the usual set", differs("number", refusal(lambda: run.patch16("main", 1)), 2))
    with replaycheck.Run(data, isa="rv32imc") as run:
        if refusal(lambda: run.edit(f"patch16 {ENTRY} 1")) == 2:
            rows.left_out("patches of halves", "line `patch16` of the program")
            return
        run.patch16("main", 1)
        before = run.report(9).text
        with run.edited("patch16 0x10006 0x9002", "patch 0x10002 0x90020001"):
            run.patch16(ENTRY + 4, 1)
            wanted = bytes.fromhex("0100010001000290")
            rows.row("halves over a word", differs("bytes", run.at(0).memory("main", 8).data, wanted))
            run._talk.drop()
            rows.row("halves in another session", differs("bytes", run.at(0).memory("main", 8).data, wanted))
        rows.row("halves that are taken back", differs("text", run.report(9).text, before))
        for line, number in (("patch16 0x10001 1", 4), ("patch16 0x20000 1", 4), ("patch16 0x10000 0x10000", 2), ("patch16 0x10000", 2)):
            rows.row(f"rejected: {line}", differs("number", refusal(lambda line=line: run.edit(line)), number))


def test_atomics(rows: Rows) -> None:
    """A run and a sweep of a program with atomic instructions."""
    with replaycheck.Run(atomic_file(), isa="rv32imac") as run:
        found = str(run.report(90).state), run.at(9).memory(COUNTED, 4).data, run.at(8).memory(COUNTED, 4).data
        rows.row("atomic instructions", differs("run", found, ("exited 7", bytes([7, 0, 0, 0]), bytes([1, 0, 0, 0]))))
    found = {outcome.state for _, outcome in replaycheck.sweep(atomic_file(), words=0x1001E, step=90, isa="rv32imac")}
    rows.row("a sweep for rv32imac", differs("states", found, {"exited 1"}))


def test_controls(rows: Rows) -> None:
    """A run, an edit and a sweep of a program with control registers."""
    with replaycheck.Run(elf(KEPT), isa="rv32imc") as run:
        found = [str(run.report(9).state)]
        run.patch(ENTRY + 4, 0x3401F073)  # csrci mscratch, 3
        rows.row("control registers", differs("states", [*found, str(run.report(9).state)], ["exited 7", "exited 4"]))
    found = {outcome.state for _, outcome in replaycheck.sweep(elf(KEPT), words=ENTRY + 4, step=9, isa="rv32imc")}
    rows.row("a sweep with control registers", differs("states", found, {"exited 5"}))


def written(data: bytes, line: str) -> bytes:
    """Bytes after a patch of them."""
    name, at, value = line.split(" ")
    length = 4 if name == "patch" else 2
    return data[:int(at, 0)] + int(value, 0).to_bytes(length, "little") + data[int(at, 0) + length:]


def patched(chosen: random.Random, loaded: bytes, unit: int) -> tuple[Scenario, bytes]:
    """A scenario with some patches at multiples of a unit, and what they leave."""
    scenario, data = Scenario(b""), loaded
    for _ in range(chosen.randrange(5)):
        is_word = unit == 4 or chosen.randrange(2)
        line = (f"patch {chosen.randrange(0, SIZE - 3, unit)} {chosen.getrandbits(32)}" if is_word else
                f"patch16 {chosen.randrange(0, SIZE, 2)} {chosen.getrandbits(16)}")
        scenario, data = scenario.after(line), written(data, line)
    return scenario, data


def test_patches(rows: Rows) -> None:
    """The lines from one scenario to another one, with patches of words and halves, lead there."""
    chosen = random.Random(1)
    loaded = chosen.randbytes(SIZE)
    unedited = {at: int.from_bytes(loaded[at:at + 4], "little") for at in range(0, SIZE, 4)}
    for unit in (2, 4):
        faults = []
        for _ in range(TURNS):
            (before, found), (after, wanted) = patched(chosen, loaded, unit), patched(chosen, loaded, unit)
            lines = list(before.lines_to(after, unedited))
            for line in lines:
                found = written(found, line)
            faults += [f"{lines}"] if found != wanted or unit == 4 and any("patch16" in it for it in lines) else []
        rows.row(f"lines between patches at multiples of {unit}", faults)


def misused(action: Callable[[], object]) -> str:
    """What is said of arguments that can't be."""
    try:
        action()
    except replaycheck.Usage as fault:
        return str(fault)
    return "nothing"


def test_regions(rows: Rows) -> None:
    """A program with its code where the heap is usually, and its stack in its segment."""
    heap, stack = 0x90000000, (0x40010000, 0x40020000)
    with replaycheck.Run(placed_file(), heap_region=heap, stack_region=stack) as run:
        rows.row("a run with regions", differs("notes", [it.note and str(it.note.address) for it in run.report(20).errors],
                                               [None, "0x90000018", "0x4001ffdc"]))
    found = [line for line, _ in replaycheck.sweep(placed_file(), function="main", step=20, heap_region=heap, stack_region=stack)]
    rows.row("a sweep with regions", differs("edits", (found[0], len(found)), ("patch 0x40000000 0x00000013", 11)))
    for one, other, wanted in ((5, stack, "heap_region: 5: not a multiple of 0x10000000 from 0x10000000 to 0xd0000000"),
                               (heap, (0, 4096), "stack_region: (0, 4096): not A..B, multiples of 4096 at least 65536 apart"),
                               (0x30000000, stack, "heap region and stack region overlap: --heap-region 0x30000000 --stack-region "
                                                   "0x40010000..0x40020000")):
        rows.row(f"a run: {wanted}", differs("fault", misused(lambda: replaycheck.Run(b"", heap_region=one, stack_region=other)), wanted))
        rows.row(f"a sweep: {wanted}", differs(
            "fault", misused(lambda: list(replaycheck.sweep(b"", heap_region=one, stack_region=other))), wanted))
