"""Which edits are in the way of a clean run's guarantee, that nothing which uninitialised, freed or unmapped memory holds can change a run.
It is `hinders` of crates/clean_reports/specs/Marks.antt for the lines of a session and of a look: what counts there is whether bits are
made defined, and whether `realloc` may copy inaccessible bytes of the heap."""
from typing import List

from replaycheck.guest.regions import HEAP_SIZE, USUAL_REGIONS, meets
from replaycheck.programs import USUAL, unit_of
from replaycheck.scripting.scenarios import number

ALL_BITS = 0xFFFFFFFF
WORD = 4  # bytes of the only instructions there are without those of 16 bits


def hinders(edit: str, isa: str = USUAL, heap_region: int = USUAL_REGIONS.heap) -> bool:
    """Returns whether an edit is in the way of the guarantee: a line of a session or of a look, or several with `; ` between them. It is of
    a run for an instruction set, with a heap region that begins at an address."""
    return any(line_hinders(line.split(" "), isa, heap_region) for line in edit.split("; "))


def line_hinders(words: List[str], isa: str, heap: int) -> bool:
    kind, _, *fields = words
    if kind == "mark":
        begin, length = map(number, fields[:2])
        return fields[2] == "defined" or fields[2] == "noaccess" and meets(begin, begin + length, heap, heap + HEAP_SIZE)
    if kind == "set":
        return fields[0] != "pc" and (len(fields) < 3 or number(fields[2]) != ALL_BITS)
    if kind == "skip":  # the bytes at pc say how far it goes, even if they are undefined
        return unit_of(isa) < WORD
    return kind == "write"
