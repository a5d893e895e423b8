"""What a program's file is read for besides an instruction set: the regions of memory that aren't its own, and how many bytes its calls
move."""
from dataclasses import dataclass

HEAP_SIZE, HEAP_STEP, LEAST_HEAP, GREATEST_HEAP = 0x20000000, 0x10000000, 0x10000000, 0xD0000000
STACK_STEP, LEAST_STACK = 4096, 65536
HEAP_WANTED = "a multiple of 0x10000000 from 0x10000000 to 0xd0000000"
STACK_WANTED = "A..B, multiples of 4096 at least 65536 apart"
# The most bytes that one read or write moves, and that a program can write in all; None is no limit. Then what one call moves at most,
# which is Linux's number, and the greatest number of bytes in all.
USUAL_MOVED, USUAL_OUTPUT = 4096, 65536
GREATEST_MOVED, GREATEST_OUTPUT = 0x7FFFF000, 0xFFFFFFFF


@dataclass(frozen=True)
class Regions:
    """Where the heap's region begins, where the stack's begins and ends, and the most bytes that one call moves and that are written in
    all, with None for no limit."""

    heap: int
    stack: "tuple[int, int]"
    moved: int = USUAL_MOVED
    output: "int | None" = USUAL_OUTPUT

    @property
    def ranges(self):
        """Each region: its name, its first address and the one after its last."""
        return [("heap", self.heap, self.heap + HEAP_SIZE), ("stack", *self.stack)]

    @property
    def places(self):
        """The options that say where regions are that aren't the usual ones, each with its value."""
        told = [("--heap-region", heap_text(self.heap))] if self.heap != USUAL_REGIONS.heap else []
        return told + ([("--stack-region", stack_text(self.stack))] if self.stack != USUAL_REGIONS.stack else [])

    @property
    def limits(self):
        """The options that say how many bytes calls move, each with its value."""
        return [("--most-moved", str(self.moved)), ("--most-output", output_text(self.output))]

    @property
    def options(self):
        """The options that say what isn't usual, each with its value."""
        usual = USUAL_REGIONS.limits
        return self.places + [option for option in self.limits if option not in usual]

    @property
    def words(self):
        """The options as arguments of the program, for a command whose defaults are the usual ones."""
        return words_of(self.options)

    @property
    def exec_words(self):
        """The options as arguments of `exec`, which has other defaults."""
        return words_of(self.places + self.limits)

    @property
    def told(self):
        """The options as a text, empty for the usual regions."""
        return " ".join(f"{name} {value}" for name, value in self.options)

    def meet(self):
        """Whether the two have an address in common."""
        begin, end = self.stack
        return meets(begin, end, self.heap, self.heap + HEAP_SIZE)

    def is_inside(self, segment):
        """Whether the stack's region is within the part of a segment that has no bytes in the file. The usual one is in none."""
        begin, end = self.stack
        return self.stack != USUAL_REGIONS.stack and segment.vaddr + segment.filesz <= begin and end <= segment.vaddr + segment.memsz

    def loaded(self, segment):
        """The ranges that a segment loads: nothing where it has the stack's region inside."""
        begin, end = segment.vaddr, segment.vaddr + segment.memsz
        parts = [(begin, self.stack[0]), (self.stack[1], end)] if self.is_inside(segment) else [(begin, end)]
        return [part for part in parts if part[0] < part[1]]

    def met(self, segment):
        """The names of the regions that a segment may not meet, and does."""
        begin, end = segment.vaddr, segment.vaddr + segment.memsz
        is_inside = self.is_inside(segment)
        return [name for name, low, high in self.ranges if meets(begin, end, low, high) and not (name == "stack" and is_inside)]


USUAL_REGIONS = Regions(0x40000000, (0x7F000000, 0x80000000))


def words_of(options):
    return [f"{name}={value}" for name, value in options]


def output_text(output):
    return "none" if output is None else str(output)


def meets(begin, end, low, high):
    """Whether two ranges have an address in common."""
    return max(begin, low) < min(end, high)


def is_heap(begin):
    """Whether the heap's region may begin at an address."""
    return begin % HEAP_STEP == 0 and LEAST_HEAP <= begin <= GREATEST_HEAP


def is_stack(begin, end):
    """Whether a range may be the stack's region."""
    return begin % STACK_STEP == 0 and end % STACK_STEP == 0 and begin + LEAST_STACK <= end < 1 << 32


def heap_text(begin):
    return f"0x{begin:08x}"


def stack_text(stack):
    return "0x{:08x}..0x{:08x}".format(*stack)


def overlap(regions):
    """What is wrong with regions that meet."""
    return f"heap region and stack region overlap: --heap-region {heap_text(regions.heap)} --stack-region {stack_text(regions.stack)}"
