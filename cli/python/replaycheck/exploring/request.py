"""What a sweep is asked for: its files, each read once here, the places and the values."""
import hashlib
import os
import re
import stat
import sys
from dataclasses import dataclass, replace

from replaycheck.endings import Fault
from replaycheck.guest.elf import Elf, refusals
from replaycheck.guest.lines import shown_name
from replaycheck.looking import TOP
from replaycheck.options import LAST_STEP, BadValue, limit_for
from replaycheck.programs import USUAL, isa_words, unit_of
from replaycheck.sessions import path_of

from .heads import form_of_words, told_isa, told_places, told_regions
from .ranges import WORD, Code, Loaded, Range
from .steps import Steps, models_fault
from .tables import EDGES
from .unedited import Unedited, default_step

NUMBER = r"0[xX][0-9a-fA-F]{1,8}|[0-9]{1,10}"
RANGE = re.compile(rf"({NUMBER})(?:\.\.({NUMBER})?)?")
LONGEST = {"program": (1 << 26) + 1, "input": (1 << 20) + 1, "supp": (1 << 20) + 1}


def number_of(text):
    return int(text, 16 if text[:2] in ("0x", "0X") else 10)


def range_of(text):
    """Reads A..B, A.. or A: the first and the last one, None where it is open."""
    found = RANGE.fullmatch(text)
    first = number_of(found[1]) if found else 0
    last = None if found and text.endswith("..") else number_of(found[2] or found[1]) if found else 0
    if not found or first >= 1 << 32 or last is not None and not first <= last < 1 << 32:
        raise BadValue(f"no range: {text!r}")
    return first, last


def words_of(text):
    first, last = range_of(text)
    if last is None:
        raise BadValue(f"a range of words has an end: {text!r}")
    return first, last


def models_of(text):
    """Reads a list of fault models."""
    if models_fault(text):
        raise BadValue(models_fault(text))
    return text


def values_reader(names, limit):
    """A reader of values: a name, or a list of numbers, none twice."""
    def read(text):
        if text in names:
            return text
        found = text.split(",")
        if not all(re.fullmatch(NUMBER, number) for number in found):
            raise BadValue(f"neither {', '.join(names)} nor a list of numbers: {text!r}")
        numbers = tuple(map(number_of, found))
        if len(set(numbers)) < len(numbers) or max(numbers) >= limit:
            raise BadValue(f"a number twice, or one from {limit} on: {text!r}")
        return numbers
    return read


# ---- files


@dataclass
class Given:
    """A file as it was read: the name that the user gave, the path that parts are given, and the content."""

    name: str
    path: str
    content: bytes

    @property
    def digest(self):
        return len(self.content), hashlib.sha256(self.content).hexdigest()


def is_plain(path):
    """Whether a file can be read again and again: none that a pipe or another process stands behind."""
    return not path.startswith(("/dev/", "/proc/")) and stat.S_ISREG(os.stat(path).st_mode)


def given(what, name, room):
    """Reads a file. What is no plain one is copied, for the parts."""
    if name is None:
        return Given("", "", b"")
    is_standard = name == "-" and what == "input"
    path = name if is_standard else path_of(name)
    with sys.stdin.buffer if is_standard else open(path, "rb") as file:
        content = file.read(LONGEST[what])
    if is_standard or not is_plain(path):
        path = os.path.join(room, what)
        with open(path, "wb") as copy:
            copy.write(content)
    return Given(name, path, content)


class Request:
    """`ranges` are those that the head of each part must have, where they can be told here: what the program refuses,
    it refuses itself. `step_note` says which step was chosen where none was asked for, and is empty otherwise."""

    def __init__(self, options, room):
        self.step, self.step_note, self.has_output = options.step, "", options.with_output
        self.has_sides = False  # whether the tables say what their runs have executed
        self.files = [given(what, name, room) for what, name in
                      (("program", options.file), ("input", options.input), ("supp", options.supp))]
        self.program, self.input, self.supp = self.files
        self.isa, self.regions = options.isa or USUAL, options.regions
        self.code = options.code
        self.unit = unit_of(self.isa)
        self.instructions = {}
        is_refused = bool(refusals(self.program.content, self.regions))
        self.elf = None if is_refused else Elf(self.program.content, self.regions)
        self.ranges, self.notes = [], []
        code = self.code_range(options.code) if options.code is not None else options.code_range
        words = code if options.at is None and options.code is not None else options.words
        self.at = options.at
        if not options.tables:
            self.choose(options, bool(options.bytes or not words and not options.at), words, code)
        if words:
            self.ranges.append(self.known(form_of_words(self.isa)("words", *words, options.words_values or "skip")))
        if self.at and not options.tables:
            self.ranges.append(self.steps_range(options.faults, code, options.pairs is not None))

    def choose(self, options, has_bytes, words, code):
        """Chooses the step, the bytes and the last step that is altered, by what the unedited run does."""
        is_open = self.at is not None and self.at[1] is None
        if has_bytes:
            self.check_input()
        elif self.step is not None and not is_open:
            return
        limit = limit_for(self.step) if self.step is not None else options.limit or LAST_STEP
        with Unedited(self.program.path, self.input.path or None, self.supp.path or None, self.isa, self.regions, limit) as run:
            if self.step is None:
                offset = (options.bytes or (0, None))[0] if has_bytes else None
                self.step, self.step_note = default_step(run.end(), lambda end: self.first_shown(run, end, offset, words, code), limit)
            if is_open:
                self.at = self.steps_to_end(self.at[0], run.end())
            if has_bytes:
                self.ranges.append(self.bytes_range(options.bytes, options.values or "all", run.bytes_read(self.step)))

    def first_shown(self, run, end, offset, words, code):
        """The first step of the unedited run whose outcome an edit may change, or the end of that run."""
        shown = [end]
        if offset is not None:
            shown.append(run.first_read(offset, end))
        if words:
            first = -(-words[0] // self.unit) * self.unit
            shown.append(run.first_use(first, min(words[1] + WORD, TOP) - first, end))
        if self.at:
            shown.append(run.first_altered(self.at[0], code, self.unit, end))
        return min(shown)

    # ---- the steps at which the machine is altered

    def steps_to_end(self, first, end):
        """The steps from one on to where the unedited run ends, or to the step of the sweep."""
        last = self.step - 1 if end is None else min(end, self.step) - 1
        if last < first:
            why = f"the unedited run ends at step {end}" if end is not None and end <= self.step else (
                f"runs are compared at step {self.step}")
            raise Fault(f"--at {first}..: {why}, so there is no step to alter")
        return first, last

    def steps_range(self, models, code, has_pairs):
        first, last = self.at
        if last >= self.step:
            raise Fault(f"--at {first}..{last}: runs are compared at step {self.step}, and alterations come before it: --step {last + 1} "
                        "or more")
        return Steps(first, last, models, code, has_pairs, self.unit)

    # ---- the bytes that are edited

    def check_input(self):
        """Refuses an input without a byte."""
        if not self.input.path:
            raise Fault("no input to edit: --input FILE gives one, --code NAME edits instructions")
        if not self.input.content:
            raise Fault(f"{shown_name(self.input.name)}: it is empty, so there is no byte to edit")

    def bytes_range(self, places, values, read):
        """The bytes that were asked for, or those that the unedited run reads: no edit of another one changes it."""
        size = len(self.input.content)
        first, last = places or (0, read - 1)
        last = max(first, size - 1) if last is None else last
        if read < size and (not places or read <= last < size):
            self.tell_unread(read, places)
        return Range("bytes", first, last, values)

    def tell_unread(self, read, places):
        """Says which bytes of the input the unedited run doesn't read, or that it reads none."""
        size = len(self.input.content)
        if not read and not places:
            from replaycheck.other_sets import hint
            other = hint(self.program.path, self.isa)
            raise Fault(f"the run reads none of the {size} bytes of {shown_name(self.input.name)} up to step {self.step}, "
                        "so no edit of them changes it: --bytes A..B tries them all the same, --code NAME edits "
                        f"instructions{other and '. '}{other}")
        rest = "which no edit of them changes" if places else f"so the other {size - read} are left out"
        self.notes.append(f"input: the unedited run reads {read} of {size} bytes, {rest}")

    def code_range(self, name):
        """The addresses of a function, or of A..B."""
        if RANGE.fullmatch(name) and not name.endswith(".."):
            return range_of(name)
        if self.elf is None:
            raise Fault(f"--code {shown_name(name)}: {shown_name(self.program.name)} has no functions that can be read")
        found = {(function.value, self.elf.extent(function)) for function in self.elf.functions
                 if self.elf.name(function) == name and self.elf.extent(function) >= self.unit}
        if not found:
            raise Fault(f"--code {shown_name(name)}: no such function")
        if len(found) > 1:
            where = "; ".join(f"--words 0x{at:08x}..0x{at + size - self.unit:08x}" for at, size in sorted(found))
            raise Fault(f"--code {shown_name(name)}: {len(found)} functions have that name: {where}")
        (at, size), = found
        return at, at + size // self.unit * self.unit - self.unit

    def known(self, one_range):
        """A range of instructions with those that the program's file has there; any other range, or one over a file that can't be read, as
        it is."""
        if not isinstance(one_range, Code) or self.elf is None:
            return one_range
        span = one_range.first, one_range.last
        if span not in self.instructions:
            self.instructions[span] = Loaded(self.elf, *span)
        return replace(one_range, known=self.instructions[span])

    # ---- what is told of it

    @property
    def places(self):
        return sum(one_range.count for one_range in self.ranges)

    def before(self, one_range, at):
        """The value that stands at a place, None where none does."""
        if one_range.kind == "bytes":
            return self.input.content[at] if at < len(self.input.content) else None
        if isinstance(one_range, Code):
            return one_range.before(at)
        return None if self.elf is None or one_range.kind == "steps" else self.word(at)

    def word(self, address):
        """A word of the loaded program; what the file doesn't have of a segment is 0."""
        found = []
        for at in range(address, address + 4):
            place = self.elf.place(at, 1)
            is_loaded = any(begin <= at < end for begin, end in self.elf.loaded)
            if place is None and not is_loaded:
                return None
            found.append(0 if place is None else self.elf.data[place])
        return int.from_bytes(bytes(found), "little")

    def edits(self):
        """How many edits there are, as far as that is told without a look at each place, or 0; for progress alone."""
        count = 0
        if any(one_range.kind == "steps" and (one_range.code or one_range.has_pairs or one_range.has_memory) for one_range in self.ranges):
            return 0
        for one_range in self.ranges:
            if one_range.kind == "bytes" and one_range.values == "edges":
                for was in self.input.content[one_range.first:one_range.last + 1]:
                    count += len({*EDGES, (was + 1) % 256, (was - 1) % 256} - {was})
            else:
                count += one_range.most_edits
        return count

    def check_files(self, source):
        """Refuses a table that isn't of these files, or that is of another instruction set or other regions. Gives its head the
        instructions of the program."""
        if source.head.isa != self.isa:
            raise Fault(f"{source}: it is of --isa {source.head.isa}, not of {self.isa}")
        if source.head.regions != self.regions:
            its, own = source.head.regions, self.regions
            raise Fault(f"{source}: it is of {told_places(its, own)}, not of {told_places(own, its)}")
        for given_file, was, now in zip(self.files, (file.digest for file in self.files), source.head.files):
            if was != now:
                named = shown_name(given_file.name) or "a file that wasn't given"
                raise Fault(f"{source}: it has another {named}, {now[0]} bytes with the digest {now[1][:16]}.., not "
                            f"{was[0]} with {was[1][:16]}..: the file was changed, or the table is of another sweep")
        source.head = source.head.over(self.known)

    def check(self, source):
        """Refuses a table that isn't of this request."""
        self.check_files(source)
        head = source.head
        wanted = [self.ranges_told(self.ranges), f"step {self.step}", f"output {'yes' if self.has_output else 'no'}"]
        came = [self.ranges_told(head.ranges), f"step {head.step}", f"output {'yes' if head.has_output else 'no'}"]
        for want, have in zip(wanted, came):
            if want != have:
                how = f", the default: --step {head.step} continues it" if self.step_note and have.startswith("step ") else ""
                raise Fault(f"{source}: it is of another sweep: {have}, not {want}{how}")

    @staticmethod
    def ranges_told(ranges):
        """Ranges in words: from the first place to the last one, and values of bytes in the order in which they are
        tried."""
        told = []
        for one_range in ranges:
            if one_range.kind == "steps":
                told.append(str(one_range))
                continue
            is_listed = one_range.kind == "bytes" and not isinstance(one_range.values, str)
            last = one_range.place(one_range.size - 1) if one_range.size else one_range.last
            told.append(str(Range(one_range.kind, one_range.start, last,
                                  tuple(sorted(one_range.values)) if is_listed else one_range.values)))
        return " and ".join(told)

    def words(self):
        """The command line of a part, without its number."""
        words = ["sweep", *isa_words(self.isa), *self.regions.words, f"--step={self.step}"]
        words += [word for one_range in self.ranges for word in one_range.words()]
        words += [f"--input={self.input.path}"] if self.input.path else []
        words += [f"--supp={self.supp.path}"] if self.supp.path else []
        words += ["--with-output"] if self.has_output else []
        return [*words, *(["--sides"] if self.has_sides else []), path_of(self.program.path)]

    @property
    def is_of_bytes(self):
        """Whether all edits are of bytes of the input."""
        return all(one_range.kind == "bytes" for one_range in self.ranges)

    def title(self):
        words = [os.path.basename(file.name) or file.name for file in self.files[:2] if file.name]
        code = f", {shown_name(self.code)}" if self.code else ""
        return shown_name(" with ".join(words)) + told_isa(self.isa) + told_regions(self.regions) + code
