"""What stands between a board's file and a checked run: what can be cured in the file, and what only a rebuild
cures."""
from __future__ import annotations

from dataclasses import dataclass

from replaycheck.guest.code import joined, without
from replaycheck.guest.elf import IS_COMPRESSED, ROOM, Elf, refusals
from replaycheck.guest.instructions import is_atomic, is_control
from replaycheck.guest.regions import USUAL_REGIONS
from replaycheck.programs import ATOMIC, ISAS, SHORT, USUAL, unit_of

from .code import Code, CodeOfHalves, replaced, stack_words
from .devices import Driving
from .heaps import Plan
from .outside import reached
from .regions import fitting, has_own, own_stack
from .semihosting import Hosting, sites

# The refusals of files that no linker has written so.
DAMAGED = (20, 23, 26, 28, 31)
TARGET = "-march=rv32im -mabi=ilp32"


@dataclass(frozen=True)
class Obstacle:
    """What only a rebuild cures, or an option: what it is, the cure, whether nothing of the file runs before, and whether an option cures
    it."""

    what: str
    cure: str
    stops_all: bool
    by_option: bool = False


class Findings:
    """All that is found in a file. `elf` is None where it can't be read so far. `isa` is the instruction set for which the file is to be
    run: the one that is asked for, unless it needs another one to have all that is missing. `regions` are where it is to have heap and
    stack: those that are asked for, unless a segment meets them. `own` is the start file's stack, if it can be the stack's region. A file
    that has instructions of 16 bits is looked at only for an instruction set that has them."""

    def __init__(self, data, heaps, kept, asked=USUAL, regions=USUAL_REGIONS):
        refused = refusals(data, regions)
        self.asked, self.asked_regions = asked, regions
        self.damaged = next((refusal for refusal in refused if refusal.number in DAMAGED), None)
        self.regions, self.elf, self.own = regions, Elf(data, regions) if all(refusal.readable for refusal in refused) else None, None
        is_cured = self.elf is not None and any(refusal.region for refusal in refused) and self.place(data)
        if is_cured:
            met = [refusal for refusal in refused if refusal.region]
            refused = sorted([*met, *refusals(data, self.regions)], key=lambda refusal: refusal.number)
        self.obstacles = [in_the_way(refusal, self.regions if is_cured else None) for refusal in refused]
        self.plan, self.control, self.stack, self.copied, self.devices = None, [], [], [], []
        self.hosting, self.driving, self.runs, self.isa = None, None, 0, USUAL
        if self.elf is None:
            return
        if self.lacks_set:
            code = CodeOfHalves(self.elf)
            self.isa = USUAL if self.hopeless() else set_of(code)
            self.obstacles.append(compressed(self.elf, self.isa_option))
            self.obstacles += returning(self.elf, code) if self.isa_option else []
            self.own = own_stack(self.elf, [])
        if not self.hopeless():
            self.look(heaps, kept)

    def place(self, data):
        """Puts heap and stack where no segment is. Returns whether there is such a place."""
        self.own = own_stack(self.elf, [] if self.lacks_set else stack_words(self.code(), self.elf.entry))
        found = fitting(self.elf, self.own)
        if found is not None:
            self.regions, self.elf = found, Elf(data, found)
        return found is not None

    @property
    def lacks_set(self):
        """Whether the file says that it has instructions of 16 bits, and the set that is asked for has none."""
        return bool(self.elf.flags & IS_COMPRESSED) and self.asked == USUAL

    @property
    def unit(self):
        """How many bytes the shortest instruction of the file has."""
        return unit_of(self.asked) if self.elf.flags & IS_COMPRESSED else unit_of(USUAL)

    def code(self, closed=()):
        return (CodeOfHalves if self.unit == 2 else Code)(self.elf, closed)

    @property
    def isa_option(self):
        """The option for the instruction set, None for the usual one."""
        return None if self.isa == USUAL else f"--isa {self.isa}"

    @property
    def option(self):
        """The options of the program without which the file doesn't run, or not to its end; None if there are none."""
        return " ".join(filter(None, (self.isa_option, self.regions.told))) or None

    @property
    def missing_option(self):
        """Those of them that weren't given; None if there are none."""
        regions = [f"{name} {value}" for name, value in self.regions.options if (name, value) not in self.asked_regions.options]
        return " ".join([*([self.isa_option] if self.isa not in (USUAL, self.asked) else []), *regions]) or None

    def hopeless(self):
        """Whether nothing that can be done to the file makes any of it run."""
        return any(obstacle.stops_all for obstacle in self.obstacles)

    def look(self, heaps, kept):
        """Looks at a file that the program takes."""
        if not self.elf.functions:
            self.obstacles.append(Obstacle("no symbols of functions: a heap isn't found, and traces have ??? for names",
                                           "link without -s, and don't strip the file", False))
        self.plan = Plan(self.elf, heaps, kept, self.unit)
        for name, address, size in self.plan.small:
            self.obstacles.append(Obstacle(
                f"{name} at 0x{address:08x} is too small for the {size} bytes that take it over",
                "compile it with -O0, or call malloc and its like in its place", False))
        code = self.code(self.plan.closed())
        if code.instruction(self.elf.entry) is None:
            self.obstacles.append(Obstacle(f"the entry, 0x{self.elf.entry:08x}, isn't at code of the file",
                                           "name the first function to the linker: ENTRY(_start), or -Wl,-e,_start",
                                           True))
            return
        needed = set_of(code)
        self.isa = max(needed, self.asked, key=ISAS.index)
        unknown = code.control if self.isa == USUAL else code.returns()
        self.control = [replaced(code, instruction) for instruction in unknown if self.elf.function_at(instruction.address) not in kept]
        words = stack_words(code, self.elf.entry)
        self.own = own_stack(self.elf, words)
        self.stack = [word for word in words if self.elf.function_at(word.address) not in kept and not has_own(self.regions, self.own)]
        atomic = [instruction for instruction in code.atomic if self.asked != ATOMIC or not is_atomic(instruction.word)]
        self.obstacles += of_code(self.elf, code, atomic, self.isa_option if self.isa != self.asked else None)
        self.copied, unplaced = physical(self.elf)
        self.obstacles += [Obstacle(
            f"{segment.filesz} bytes for 0x{segment.vaddr:08x} that the linker script puts to 0x{segment.paddr:08x}, where they can't "
            f"be loaded: {why}", "give them another place by AT> or ORIGIN in the linker script", False)
            for segment, why in unplaced]
        self.devices = reached(self.elf, code, self.copied)
        self.look_for_calls_of_a_host(kept)

    def look_for_calls_of_a_host(self, kept):
        """Looks for calls of a host, and for a place of what answers them."""
        found = sites(self.elf, kept, self.unit)
        if found:
            self.hosting = Hosting(self.elf, found, [(device.first, device.last + 1) for device in self.devices if device.places])
            why = self.hosting.refused(self.loaded(), len(self.elf.segments) + len(self.copied))
            if why:
                self.obstacles.append(Obstacle(f"semihosting calls, at {self.elf.where_all(found)}: {why[0]}",
                                               why[1], True))

    def answer_for(self, sites):
        """Has some loads and stores of devices answered for."""
        others = [(device.first, device.last + 1) for device in self.devices if device.places]
        others += self.hosting.ranges() if self.hosting else []
        self.driving = Driving(self.elf, sites, others) if sites else None

    def no_answer(self):
        """The obstacle if loads and stores of devices can't be answered for, or None."""
        before = self.loaded() + (self.hosting.total() if self.hosting else 0)
        segments = len(self.elf.segments) + len(self.copied) + (len(self.hosting.groups) if self.hosting else 0)
        why = self.driving.refused(before, segments)
        where = self.elf.where_all(self.driving.sites)
        return why and Obstacle(f"loads and stores of device registers, at {where}: {why[0]}", why[1], True)

    def loaded(self):
        """How many bytes are loaded, with those at physical addresses."""
        return sum(end - start for start, end in self.elf.loaded) + sum(segment.filesz for segment in self.copied)

    def added(self):
        """What is added to the file."""
        return [added for added in (self.hosting, self.driving) if added]

    def cures(self):
        """How many things can be cured in the file."""
        taken = self.plan.taken if self.plan else ()
        return sum(len(added.sites) for added in self.added()) + len(taken) + len(self.control) + len(self.stack) + len(self.copied)

    @property
    def other_cure(self):
        """The option of the program that is enough in place of all cures, or None."""
        controls = [instruction for instruction in self.control if is_control(instruction.word)]
        if not controls or len(controls) != self.cures():
            return None
        return " ".join(filter(None, (f"--isa {SHORT}", self.regions.told)))


def in_the_way(refusal, regions):
    """The obstacle of a refusal, with the option that cures it if regions are given that do."""
    what = f"{refusal.what} (image refused {refusal.number})"
    if not refusal.region or regions is None:
        return Obstacle(what, refusal.cure, True)
    option = f"--{refusal.region}-region"
    value = dict(regions.options).get(option)
    cure = f"give the option {option} {value}, which puts the {refusal.region} there" if value else f"leave the option {option} out"
    return Obstacle(what, cure, False, True)


def set_of(code):
    """The instruction set for code that is looked at now: the usual one if no other has all that is found."""
    code.follow()
    return code.least_set() or USUAL


def compressed(elf, option):
    """The obstacle of compressed instructions, with the first that is reached, and the option that takes them, if one does."""
    code = Code(elf)
    code.follow()
    place = f", at {places(elf, code.compressed)}" if code.compressed else ""
    return Obstacle(f"compressed instructions, by bit 0 of e_flags{place}: at the first the run stops",
                    f"{by_option(option)}compile all of it, and link with libraries for it: {TARGET}", True, bool(option))


def returning(elf, code):
    """The obstacle of returns from traps and the like in a file that isn't cured, if it has any."""
    found = code.returns()
    return [Obstacle(f"returns from traps and the like, at {places(elf, found)}: a run that reaches one stops there",
                     "no trap leads there; a start file that enters main by mret has to jump there", False)] if found else []


def by_option(option):
    """The words of a cure by an option of the program, if one takes all instructions."""
    return f"give the option {option}, which takes them; or " if option else ""


def places(elf, found):
    return elf.where_all([instruction.address for instruction in found])


def of_code(elf, code, atomic, option):
    """Obstacles of instructions that there aren't, or only with an option, which of all kinds only atomic ones have here."""
    kinds = [
        (code.compressed, "compressed instructions" if code.unit == 4 else "halves that are no instructions of RV32IMC",
         f"compile all of it, and link with libraries for it: {TARGET}"),
        (atomic, "atomic instructions",
         f"{by_option(option)}compile with {TARGET}, without the letter a: then they are calls of __atomic_*, "
         "which stubs.c of the firmware kit has"),
        (code.floating, "instructions for floating point",
         f"compile with {TARGET}, without the letters f and d: then the library computes"),
        (code.unknown, "words that are no instructions of RV32IM",
         f"compile with {TARGET}, without further extensions"),
    ]
    return [Obstacle(f"{what}, at {places(elf, found)}: a run that reaches one stops there", cure, False, bool(option))
            for found, what, cure in kinds if found]


def physical(elf):
    """Segments to load at their physical addresses too, and those that can't be, each with the reason. A file whose
    physical addresses are all 0 has none."""
    copied, unplaced = [], []
    if not any(load.paddr for load in elf.contents):
        return copied, unplaced
    taken = joined((load.vaddr, load.vaddr + load.memsz) for load in elf.loads)
    total, count, last = sum(end - start for start, end in elf.loaded), len(elf.segments), 0
    for segment in sorted(elf.contents, key=lambda load: load.paddr):
        if segment.paddr == segment.vaddr or has_bytes(elf, segment):
            continue
        why = unloadable(segment, taken, last, elf.regions)
        if total + segment.filesz > ROOM:
            why = why or f"there would be more than {ROOM} bytes"
        if count + 1 >= 0xFFFF:
            why = why or "there would be too many segments"
        if why:
            unplaced.append((segment, why))
        else:
            copied.append(segment)
            total, count, last = total + segment.filesz, count + 1, segment.paddr + segment.filesz
    return copied, unplaced


def unloadable(segment, taken, last, regions):
    """Why a segment can't be loaded at its physical address beside what is loaded, where those before it end at last;
    or None."""
    start, end = segment.paddr, segment.paddr + segment.filesz
    if end > 1 << 32:
        return "addresses end at 0xffffffff"
    region = next((name for name, low, high in regions.ranges if start < high and low < end), None)
    if region:
        return f"it is the {region}'s region"
    meets = start < last or without([[start, end]], taken) != [[start, end]]
    return "something else is loaded there" if meets else None


def has_bytes(elf, segment):
    """Whether a segment's bytes are loaded at its physical address already."""
    place = elf.place(segment.paddr, segment.filesz)
    start, size = segment.offset, segment.filesz
    return place is not None and elf.data[place:place + size] == elf.data[start:start + size]
