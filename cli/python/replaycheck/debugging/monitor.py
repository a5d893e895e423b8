"""Lines of `monitor`: those of Valgrind's gdbserver where it has them (Memcheck's manual, section 4.6), lines of a session, and the
step."""
import os
import subprocess

from replaycheck import options
from replaycheck.endings import Fault, start
from replaycheck.guest.elf import Elf
from replaycheck.looking import DEFINED, NO_ACCESS
from replaycheck.origins.image import LONGEST_FILE
from replaycheck.programs import TOP
from replaycheck.reports import SUMS
from replaycheck.sessions import isa_words, limit_words, path_of

from .altering import register_of
from .registers import NAMES

HELP = """step                              which step this is, and where the program is
goto N | end                      goes to a step, or to the end of the program
report | errors | leak_check      the report at this step, its errors, or its leaks
get_vbits ADDR [LEN]              undefined bits of bytes, four a word; __ where there is no access
check_memory addressable|defined ADDR [LEN]
who_points_at ADDR [LEN]          registers and aligned words that point there
block_list                        the blocks of the heap that are in use, and from where they were allocated
backtrace                         where the program is, and the calls that it is in, as a report has them
stop_at_errors on|off             continue and reverse-continue stop before each step that makes an error that isn't suppressed
origin [N]                        where the undefined bits came from on which the Nth error so far depends
make_memory noaccess|undefined|defined ADDR [LEN]     a mark at this step
skip                              leaves out the instruction here, this once
flip REGISTER|ADDR MASK           turns bits of a register, of pc or of the four bytes at ADDR, here
changes                           the edits that stand; marks and what was altered at a step have a number
unmark I | unmark I..J            takes one of these back, or several
input .. | patch .. | patch16 .. | mark .. | option .. | supp ..  edits the run, as a line of a session does;
set STEP .. | write STEP .. | flip STEP .. | skip STEP  alters it at a step, as a line of replaycheck look does;
                                  the step stays, and all else is that of the edited run
worked                            how many steps were made for reports and looks
"""
EDITS = ("input", "patch", "patch16", "mark", "set", "write", "option", "supp")
KINDS = ("noaccess", "undefined", "defined")
MOST = 1 << 20  # bytes of memory that one line asks about
WORD = 4


class Monitor:
    """Answers lines of `monitor` over a run."""

    def __init__(self, run, goer, alterer):
        self.run, self.goer, self.alterer = run, goer, alterer
        with open(run.files[0], "rb") as file:
            self.elf = Elf(file.read(LONGEST_FILE), run.regions)
        self.by_word = {
            "help": self.help, "step": self.where, "goto": self.goto, "end": self.end, "report": self.report,
            "errors": self.report, "leak_check": self.report, "get_vbits": self.get_vbits,
            "check_memory": self.check_memory, "who_points_at": self.who_points_at, "block_list": self.block_list,
            "backtrace": self.backtrace, "stop_at_errors": self.stop_at_errors, "origin": self.origin,
            "make_memory": self.make_memory, "worked": self.worked, "skip": self.skip, "flip": self.flip,
            "changes": self.changes, "unmark": self.unmark,
            **{edit: self.edit for edit in EDITS}}

    def answer(self, line):
        if not line.strip():
            return self.help("help")
        word, *words = line.split()
        if word not in self.by_word:
            raise Fault(f"no such line: {word}; see monitor help")
        return self.by_word[word](word, *words)

    def help(self, word, *words):
        taken(words, 0, 0, word)
        return HELP

    # ---- where

    def where(self, word="step", *words):
        taken(words, 0, 0, word)
        seen = self.run.registers()
        return f"step {self.run.step}, {seen.state}, pc 0x{seen.pc:08x}\n"

    def goto(self, word, *words):
        taken(words, 1, 1, word)
        self.run.step = number(words[0], self.run.limit)
        return self.where()

    def end(self, word, *words):
        taken(words, 0, 0, word)
        self.run.step = self.run.end()
        return self.where()

    # ---- reports

    def report(self, word, *words):
        taken(words, 0, 0, word)
        rows = str(self.run.report(self.run.step)).splitlines(True)
        leaks = next(i for i, row in enumerate(rows) if row.startswith(("leak ", f"{SUMS[0]}:")))
        return "".join({"report": rows, "errors": rows[4:leaks] + rows[-1:], "leak_check": rows[leaks:-1]}[word])

    def worked(self, word, *words):
        taken(words, 0, 0, word)
        return self.run.ask("worked")[0] + "\n"

    def stop_at_errors(self, word, *words):
        taken(words, 1, 1, word)
        if words[0] not in ("on", "off"):
            raise Fault("stop_at_errors on, or off")
        self.goer.stop_at_errors(words[0] == "on")
        return f"stop_at_errors {words[0]}\n"

    def origin(self, word, *words):
        taken(words, 0, 1, word)
        file, given, supp = self.run.files
        asked = ["--input", path_of(given)] if given is not None else []
        asked += ["--supp", path_of(supp)] if supp is not None else []
        asked += [*isa_words(self.run.isa), *self.run.regions.words, *limit_words(self.run.limit)]
        asked += [part for line in self.run.edits for part in ("--line", line)]
        asked += [f"--last={min(self.run.step + 1, self.run.limit)}", f"--error={number(words[0]) if words else 1}"]
        child = start([f"{TOP}/cli/bin/replaycheck-origin", path_of(file), *asked], stdin=subprocess.DEVNULL,
                      stdout=subprocess.PIPE, stderr=subprocess.STDOUT, env={**os.environ, "COLUMNS": "100"})
        return child.communicate()[0].decode("utf-8", "surrogateescape")

    # ---- memory

    def get_vbits(self, word, *words):
        undefined = self.run.memory(*self.span(word, words)).undefined
        row, width = 16 * WORD, 2 * WORD  # digits
        return "".join(" ".join(undefined[i:min(i + width, begin + row)] for i in range(begin, min(begin + row, len(undefined)), width))
                       + "\n" for begin in range(0, len(undefined), row))

    def check_memory(self, word, *words):
        if not words or words[0] not in ("addressable", "defined"):
            raise Fault("check_memory addressable, or defined, and then ADDR [LEN]")
        address, length = self.span(word, words[1:])
        undefined = self.run.memory(address, length).undefined
        for offset in range(length):
            bits = undefined[2 * offset:2 * offset + 2]
            if bits == NO_ACCESS or bits != DEFINED and words[0] == "defined":
                what = "not addressable" if bits == NO_ACCESS else "not defined"
                return f"Address 0x{address:08x} len {length} {what}:\nbad address 0x{address + offset:08x}\n"
        return f"Address 0x{address:08x} len {length} {words[0]}\n"

    def who_points_at(self, word, *words):
        address, length = self.span(word, words)
        seen, found = self.run.registers(), []
        for name, value, undefined in zip(NAMES, seen.values, seen.undefined):
            if not undefined and address <= value < address + length:
                found.append(f"register {name} points {value - address} bytes inside\n")
        for begin, end in self.searched(seen):
            found += self.words_in(begin, end, address, length)
        return "".join(found) or "nothing points there\n"

    def words_in(self, begin, end, address, length):
        """The aligned words of a range that are defined and point into another one."""
        seen = self.run.memory(begin, end - begin)
        for i in range(0, len(seen.data) - WORD + 1, WORD):
            value = int.from_bytes(seen.data[i:i + WORD], "little")
            if address <= value < address + length and seen.undefined[2 * i:2 * (i + WORD)] == DEFINED * WORD:
                yield f"word at 0x{begin + i:08x} points {value - address} bytes inside\n"

    def searched(self, seen):
        """Where pointers are looked for: what is loaded, the blocks of the heap, and the stack."""
        ranges = [(begin + 3 & ~3, end) for begin, end in self.elf.loaded]
        ranges += [(block.start, block.start + block.size) for block in self.live_blocks()]
        sp = seen.values[2] & ~3
        begin, end = self.run.regions.stack
        return ranges + ([(sp, min(end, sp + MOST))] if begin <= sp < end else [])

    def block_list(self, word, *words):
        taken(words, 0, 0, word)
        blocks = self.live_blocks()
        rows = [f"0x{block.start:08x} {block.size} from {' '.join(f'0x{place:08x}' for place in block.trace)}\n" for block in blocks]
        return "".join(rows) + f"{len(blocks)} blocks\n"

    def backtrace(self, word, *words):
        taken(words, 0, 0, word)
        return "".join(f"#{index:<2} {self.elf.where(address)}\n" for index, address in enumerate(self.run.stack()))

    def live_blocks(self):
        return [block for block in self.run.blocks() if block.is_live]

    def make_memory(self, word, *words):
        if not words or words[0].lower() not in KINDS:
            raise Fault("make_memory noaccess, undefined or defined, and then ADDR [LEN]")
        address, length = self.span(word, words[1:])
        return self.edit("mark", str(self.run.step), f"0x{address:x}", str(length), words[0].lower())

    # ---- edits

    def edit(self, word, *words):
        """Gives a line that edits the run, with registers by their other names too."""
        if word == "set" and len(words) > 1:
            words = [words[0], register_of(words[1]), *words[2:]]
        reply = self.run.edit(" ".join([word, *words]))
        return reply + "\n" + (self.where() if reply == "ok" else "")

    def skip(self, word, *words):
        taken(words, 0, 1, "skip [STEP]")
        return self.edit(word, *words or [str(self.run.step)])

    def flip(self, word, *words):
        taken(words, 2, 3, "flip [STEP] REGISTER|ADDR MASK")
        *step, place, mask = words
        return self.edit(word, *step or [str(self.run.step)], register_of(place), mask)

    def changes(self, word, *words):
        """What stands."""
        taken(words, 0, 0, word)
        listed, others = self.alterer.standing()
        rows = [*(f"   {other}" for other in others), *(f"{index}: {line}" for index, line in enumerate(listed))]
        return "\n".join(rows or ["no edits"]) + "\n"

    def unmark(self, word, *words):
        """Takes back one mark or alteration, or several, the last of them first."""
        taken(words, 1, 1, "unmark I, or I..J")
        first, dots, last = words[0].partition("..")
        if not dots:
            return self.edit(word, first)
        standing = len(self.alterer.standing()[0])
        first, last = number(first), number(last) if last else standing - 1
        if not first <= last < standing:
            raise Fault(f"{words[0]}: there are {standing}; see monitor changes")
        replies = [self.run.edit(f"{word} {index}") for index in reversed(range(first, last + 1))]
        return next((reply for reply in replies if reply != "ok"), "ok") + "\n" + self.where()

    def span(self, word, words):
        """The range that the words of a line have: ADDR [LEN]."""
        taken(words, 1, 2, f"{word}: ADDR [LEN]")
        address, length = number(words[0]), number(words[1]) if len(words) > 1 else 1
        if not 0 < length <= MOST or address + length > 1 << 32:
            raise Fault(f"1 to {MOST} bytes, that end at 2^32 or below")
        return address, length


def taken(words, least, most, what):
    if not least <= len(words) <= most:
        raise Fault(f"too {'few' if len(words) < least else 'many'} arguments: {what}")


def number(text, greatest=(1 << 32) - 1):
    try:
        return options.number(0, greatest)(text)
    except options.BadValue as fault:
        raise Fault(str(fault)) from None
