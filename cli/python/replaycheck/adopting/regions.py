"""Where heap and stack can be for a file: apart from its segments, and where its start file has its stack."""
from __future__ import annotations

from dataclasses import dataclass

from replaycheck.guest import rv32
from replaycheck.guest.elf import OBJECT
from replaycheck.guest.regions import HEAP_SIZE, STACK_STEP, USUAL_REGIONS, Regions, is_stack, meets, stack_text

from .outside import DEVICES

# Where the heap is put: the usual place, and then those where boards have least, the highest addresses of RAM and devices last.
HEAPS = [USUAL_REGIONS.heap, *range(0x90000000, 0xE0000000, 0x10000000), *range(0x10000000, 0x90000000, 0x10000000)]
# Where the stack ends, if the start file's own isn't known.
STACK_ENDS = [USUAL_REGIONS.stack[1], *range(0x90000000, 0xF0000000, 0x10000000), *range(0x10000000, 0x80000000, 0x10000000)]
MOST_STACK = USUAL_REGIONS.stack[1] - USUAL_REGIONS.stack[0]
# What linker scripts call the end of the stack: those of newlib and picolibc, of vendors, and of Rust.
NAMES = ("__stack_top", "_stack_top", "stack_top", "__stack", "_estack", "__StackTop", "_eusrstack", "_sp", "__stack_end", "_stack_start")
ALLOCATED = 2


@dataclass(frozen=True)
class Own:
    """The stack of a start file: where it ends, the symbol that says so, if it isn't the words of the file, and the region that makes it
    undefined."""

    top: int
    name: str | None
    region: tuple[int, int]


def end_by_words(words):
    """The address that the start file's words give the stack pointer, or None where they don't have it."""
    value = None
    for instruction in words:
        code = rv32.opcode(instruction.word)
        if code in (rv32.LUI, rv32.AUIPC):
            value = rv32.upper(instruction.word) + (instruction.address if code == rv32.AUIPC else 0)
        elif code == rv32.IMMEDIATE and rv32.funct3(instruction.word) == 0 and value is not None:
            value += rv32.immediate(instruction.word)
        else:
            value = None
    return None if value is None else value & 0xFFFFFFFF


def end_by_name(elf):
    """The address and the name of the symbol that is the end of the stack, or None."""
    named = {elf.name(symbol): symbol.value for symbol in reversed(elf.symbols)}
    return next(((named[name], name) for name in NAMES if named.get(name)), None)


def lowest(elf, top, end):
    """Up to where memory below the end of a stack is something else's: what the file has in it, and its variables. None if one is between
    the stack pointer's first place and the end of the region."""
    parts = [(load.vaddr, load.vaddr + (load.filesz if end <= load.vaddr + load.memsz else load.memsz)) for load in elf.loads if load.memsz]
    parts += [(section.addr, section.addr + section.size) for section in elf.sections
              if section.flags & ALLOCATED and section.size and section.addr + section.size < top]
    for symbol in elf.symbols:
        if symbol.info & 15 == OBJECT and symbol.size:
            parts.append((symbol.value, symbol.value if symbol.value < top <= symbol.value + symbol.size else symbol.value + symbol.size))
    if any(low < end and top < high for low, high in parts):
        return None
    return max((high for low, high in parts if low < end), default=0)


def own_stack(elf, words):
    """The stack that the start file has, by its words and by symbols, if the place has no bytes in the file."""
    by_words, by_name = end_by_words(words), end_by_name(elf)
    top, name = (by_words, None) if by_words else by_name or (None, None)
    if not top or not elf.symbols:
        return None
    end = -(-top // STACK_STEP) * STACK_STEP
    begin = lowest(elf, top, end)
    if begin is None:
        return None
    begin = max(-(-begin // STACK_STEP) * STACK_STEP, end - MOST_STACK, 0)
    if not is_stack(begin, end):
        return None
    region = Regions(elf.regions.heap, (begin, end))
    return None if any("stack" in region.met(load) for load in elf.loads) else Own(top, name, (begin, end))


def has_own(regions, own):
    """Whether the stack's region has the start file's stack."""
    begin, end = regions.stack
    return own is not None and begin < own.top <= end


def is_told(regions, own):
    """Whether the start file's stack can be the stack's region, and isn't."""
    return own is not None and not has_own(regions, own) and not Regions(regions.heap, own.region).meet()


def fitting(elf, own):
    """Regions that no segment of a file meets, as near as can be to those for which it was read; None if there are none. A stack that can't
    stay is the start file's own, if that is known. A heap that can't stay isn't put there."""
    met = {name for load in elf.loads for name in elf.regions.met(load)}
    taken = [(load.vaddr, load.vaddr + load.memsz) for load in elf.loads]
    taken += [(segment.paddr, segment.paddr + segment.filesz) for segment in elf.contents]
    taken += [(first, first + size) for first, size, _ in DEVICES]

    def is_free(low, high, others):
        return not any(meets(low, high, *other) for other in others)

    stack = elf.regions.stack
    if "stack" in met:
        ends = [end for end in STACK_ENDS if is_free(end - MOST_STACK, end, taken)]
        stack = own.region if own else (ends[0] - MOST_STACK, ends[0]) if ends else None
    if stack is None:
        return None
    heaps = [elf.regions.heap] if "heap" not in met else []
    heaps += [place for place in HEAPS if is_free(place, place + HEAP_SIZE, taken)]
    others = [stack, *([own.region] if own and "heap" in met else [])]
    heap = next((place for place in heaps if is_free(place, place + HEAP_SIZE, others)), None)
    return None if heap is None else Regions(heap, stack)


def line(own):
    """The line on the start file's stack."""
    named = f" ({own.name})" if own.name else ""
    return (f"stack: the start file's own, below 0x{own.top:08x}{named}: uninitialised values on it are found with "
            f"--stack-region {stack_text(own.region)}")
