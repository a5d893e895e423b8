"""Which heap a program's file has, and whether errors of the heap can be found in its run.

The program takes over functions that are named malloc, free, calloc and realloc, and environment calls 2001 to 2004. Its `exec` says
whether the heap of a run goes unseen, and why; here that is asked for."""
import os
import struct

from replaycheck.allocators import HEAP
from replaycheck.children import outcome
from replaycheck.guest.elf import Elf
from replaycheck.guest.regions import USUAL_REGIONS
from replaycheck.programs import ISAS, isa_words, path_of, program, unit_of

LONGEST_FILE = 1 << 26
# What the program says of a heap that goes unseen, after the file's name, and of one of a file without symbols.
UNSEEN, WITHOUT_SYMBOLS = ": errors of the heap can't be found", ": the file has no symbols: "
BY_NAME, BY_NUMBER, NONE, NO_SYMBOLS, OTHER_NAMES = "by name", "by number", "none", "no symbols", "other names"


class Heap:
    """How the heap of a file is known, and its functions, or those that have other names. `said` is what the program says of a heap that
    goes unseen, after the file's name."""

    def __init__(self, known, functions=(), said=""):
        self.known, self.functions, self.said = known, sorted(functions), said

    @property
    def is_unseen(self):
        """Whether the file may have a heap whose errors can't be found."""
        return bool(self.said)

    def notice(self, file):
        """What a user has to know of an unseen heap, in a line."""
        return file + self.said


def choices():
    """The instructions `li a7,2001` to `li a7,2004`, by which a call of the heap is chosen."""
    from replaycheck.guest.rv32 import A7, ZERO, addi  # here, as few files are asked for them
    return [addi(A7, ZERO, number) for number in range(2001, 2005)]


def has_word(elf, segment, words, unit):
    """Whether a word of a segment is one of these, at an address where an instruction may begin."""
    content = elf.data[segment.offset:segment.offset + segment.filesz]
    for word in words:
        at = -1
        while (at := content.find(word.to_bytes(4, "little"), at + 1)) >= 0:
            if (segment.vaddr + at) % unit == 0:
                return True
    return False


def calls_by_number(elf, unit):
    """Whether the code chooses an environment call of the heap. Its instructions begin at multiples of `unit`."""
    from replaycheck.guest.rv32 import ECALL
    return all(any(has_word(elf, load, words, unit) for load in elf.loads) for words in ([ECALL], choices()))


def named_in(elf):
    """The functions that the program takes over in a file, by their names."""
    return [name for name in HEAP if elf.named(elf.functions, name)]


def elf_of(file):
    """What is read of a file that the program has accepted."""
    with open(file, "rb") as opened:
        return Elf(opened.read(LONGEST_FILE + 1))


def has_heap(file, isa):
    """Whether a file's symbols or its code show a heap that the program takes over."""
    try:
        elf = elf_of(file)
        return bool(named_in(elf)) or calls_by_number(elf, unit_of(isa))
    except (OSError, IndexError, struct.error):  # it has changed since it was run
        return False


def said_of(words, step):
    """What the program says of a run up to a step whose heap goes unseen, after the file's name; nothing of any other."""
    _, _, said = outcome([program(), "exec", "--quiet", "--require-heap", "--report=/dev/null", f"--step={step}", *words])
    lines = said.decode("utf-8", "surrogateescape").splitlines()
    return next((line[line.index(UNSEEN):] for line in lines if UNSEEN in line), "")


def heap_of_run(file, given, step, isa=ISAS[0], regions=USUAL_REGIONS, excepted=()):
    """The heap of a program's file, as its run up to a step shows it; None of a file that can't be read twice, such as a pipe. `isa` is the
    run's instruction set, `regions` where its heap and stack are, and `excepted` has the functions that are no heap's."""
    if not os.path.isfile(file):
        return None
    words = [*isa_words(isa), *regions.exec_words, *(["--not-heap", ",".join(excepted)] if excepted else []), path_of(file)]
    first = said = said_of(words, 0)
    if said and step and (given is None or os.path.isfile(given)):
        said = said_of([*(["--input", path_of(given)] if given is not None else []), *words], step)
    if said:
        is_bare = WITHOUT_SYMBOLS in said
        return Heap(NO_SYMBOLS if is_bare else OTHER_NAMES, [] if is_bare else said.rpartition(": ")[2].split(", "), said)
    try:
        elf = elf_of(file)
        named = named_in(elf)
        return Heap(BY_NAME, named) if named else Heap(BY_NUMBER if first or calls_by_number(elf, unit_of(isa)) else NONE)
    except (OSError, IndexError, struct.error):  # it has changed since it was run
        return None
