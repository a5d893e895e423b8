"""What a run from Python is opened for: an instruction set, and regions of heap and stack."""
from __future__ import annotations

from typing import Optional, Tuple

from replaycheck.guest.regions import (GREATEST_MOVED, GREATEST_OUTPUT, HEAP_WANTED, STACK_WANTED, USUAL_MOVED, USUAL_OUTPUT, Regions,
                                 is_heap, is_stack, overlap)
from replaycheck.programs import ISAS
from replaycheck.scripting.errors import Usage


def regions_for(isa: str, heap: int, stack: Tuple[int, int], moved: int = USUAL_MOVED, output: Optional[int] = USUAL_OUTPUT) -> Regions:
    """Returns the regions and limits of a run for an instruction set.

    # Errors

    `Usage` if there is no such instruction set, if a region can't be there, if both overlap, or if a number is none."""
    check_heap(isa, heap)
    if not (isinstance(stack, tuple) and len(stack) == 2 and all(isinstance(address, int) and address >= 0 for address in stack)
            and is_stack(*stack)):
        raise Usage(f"stack_region: {stack!r}: not {STACK_WANTED}")
    if not isinstance(moved, int) or not 1 <= moved <= GREATEST_MOVED:
        raise Usage(f"most_moved: {moved!r}: not a number from 1 to {GREATEST_MOVED}")
    if output is not None and (not isinstance(output, int) or not 0 <= output <= GREATEST_OUTPUT):
        raise Usage(f"most_output: {output!r}: not a number up to {GREATEST_OUTPUT}, and not None")
    regions = Regions(heap, stack, moved, output)
    if regions.meet():
        raise Usage(overlap(regions))
    return regions


def check_heap(isa: str, heap: int) -> None:
    """Raises `Usage` if there is no such instruction set, or if no heap's region begins at an address."""
    if isa not in ISAS:
        raise Usage(f"isa: {isa!r}: none of {', '.join(ISAS)}")
    if not isinstance(heap, int) or not is_heap(heap):
        raise Usage(f"heap_region: {heap!r}: not {HEAP_WANTED}")
