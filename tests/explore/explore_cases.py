"""Tables of sweeps that were never made, for tests/explore/test-explore, and ways in which a table is wrong."""
import hashlib
import random

ERROR = "Invalid read of size 1\n   at 0x00010044: total\n   by 0x00010028: main"
LEAK = "definitely lost\n   at 0x00010918: malloc"
JUMP = "Jump to the invalid address stated on the next line\n   at 0x00010028: main"
OUTCOMES = ["exited 0", "exited 1", f"exited 0\n{ERROR}", f"exited 3\n{LEAK}", "running", f"stopped jump\n{JUMP}",
            "stopped break 0x00010028", f"exited 0\n{ERROR}\n{LEAK}"]
SUM = hashlib.sha256(b"").hexdigest()


class Made:
    """A sweep of so many bytes, words and steps, each edit of which has an outcome by chance."""

    def __init__(self, places, words=0, values="3,5,7", seed=1, outcomes=OUTCOMES, steps=0, isa="rv32im", regions=(), has_sides=False):
        chance = random.Random(seed)
        self.head = [f"isa {isa}"] if isa != "rv32im" else []
        self.head += regions
        self.head += [f"program 9 {SUM}", f"input {places} {SUM}", f"supp 0 {SUM}", f"bytes 0..{places - 1} {values}"]
        self.head += [f"words 0x00010000..0x{0x10000 + 4 * words - 1:08x} flips"] if words else []
        self.head += [f"steps 0..{steps - 1} pc,skip"] if steps else []
        self.head += ["sides yes"] if has_sides else []
        self.head += ["step 100", "output no"]
        self.version = 2 if steps or isa != "rv32im" or regions or has_sides else 1
        self.outcomes = outcomes
        self.rows = []  # for each place its edits, each with an outcome
        for at in range(places):
            was = chance.randrange(256) if values in ("all", "flips") else 9
            tried = {"all": range(256), "flips": sorted(was ^ 1 << bit for bit in range(8))}.get(values)
            tried = [int(it) for it in values.split(",")] if tried is None else tried
            self.rows.append([(f"input {at} {value}", chance.randrange(len(outcomes))) for value in tried if value != was])
        for index in range(words):
            at, was = 0x10000 + 4 * index, chance.getrandbits(32)
            edits = [(f"patch 0x{at:08x} 0x{was ^ 1 << bit:08x}", chance.randrange(len(outcomes))) for bit in range(32)]
            self.rows.append(edits if index % 3 else [])  # not each word is loaded
        for step in range(steps):
            edits = [f"skip {step}", *(f"flip {step} pc 0x{1 << bit:08x}" for bit in range(32))]
            self.rows.append([(edit, chance.randrange(len(outcomes))) for edit in edits] if step % 4 else [])  # not each is at the code

        # For the unedited run and for each place, what was executed of 200 places of instructions.
        few = [0] * 9 + [1, 2, 3]
        self.executed = [[0] * 64 + [chance.choice(few) for _ in range(136)] for _ in range(1 + len(self.rows))] if has_sides else []
        self.unit = 4 if isa == "rv32im" else 2

    def sides(self, low, high):
        """The lines of digits of a part, with its places from one up to another."""
        runs = self.executed[:1] + self.executed[1 + low:1 + high]
        digits = "".join(str(max(it & 1 for it in each) + max(it & 2 for it in each)) for each in zip(*runs))
        return [f"sides 0x{0x10000 + self.unit * at:08x} {digits[at:at + 64]}" for at in range(0, len(digits), 64)
                if digits[at:at + 64].strip("0")]

    def part(self, index=1, count=1):
        """The table of a part."""
        size = len(self.rows)
        low, high = size * (index - 1) // count, size * index // count
        numbers = {self.outcomes[0]: 0}
        lines = [f"sweep {self.version}", *self.head, f"part {index}/{count}", "outcome 0", self.outcomes[0], "unedited 0"]
        tallies = [0]
        edits = [it for place in self.rows[low:high] for it in place]
        for edit, index in edits:
            outcome = self.outcomes[index]
            if outcome not in numbers:
                lines += [f"outcome {len(numbers)}", outcome]
                numbers[outcome] = len(numbers)
                tallies.append(0)
            tallies[numbers[outcome]] += 1
            lines.append(f"{edit} {numbers[outcome]}")
        lines += [f"tally {number} {tally}" for number, tally in enumerate(tallies)]
        lines += self.sides(low, high)
        lines += [f"end {len(edits)} {len(tallies)} {7 * len(edits)}"]
        return "".join(f"{line}\n" for line in lines).encode()


def changed(old, new):
    """A change of a table: the first time that a text stands there, another one."""
    def change(table):
        assert old in table, old
        return table.replace(old, new, 1)
    return change


def with_sides(lines, head=b"sides yes\n"):
    """A change of a table: it says what its runs have executed, in these lines."""
    return lambda it: it.replace(b"sweep 1", b"sweep 2").replace(b"step 100", head + b"step 100").replace(b"end 18", lines + b"end 18")


LINE = b"sides 0x00010000 " + b"0123" * 16 + b"\n"
HUGE = b"9" * 5000000
# Label, what becomes of a good table, and what is said of it.
WRONG_TABLES = [
    ("an empty table", lambda it: b"", "it is empty"),
    ("no end line", lambda it: it[:it.index(b"end ")], "no line `end ..`"),
    ("a line that is cut", lambda it: it[:-3], "the last line is cut"),
    ("cut amid the rows", lambda it: it[:it.index(b"input 1 ")], "no line `end ..`"),
    ("another version", changed(b"sweep 1", b"sweep 3"), "unknown version: sweep 3; this reads `sweep 1` and `sweep 2`"),
    ("a version for steps", changed(b"sweep 1", b"sweep 2"), "`steps A..B MODELS`, as in each table of `sweep 2`, comes here"),
    ("steps in the version before", changed(b"bytes 0..5", b"steps 0..5 skip\nbytes 0..5"),
     "line 5: a line of `sweep 2` in a table of `sweep 1`: steps 0..5 skip"),
    ("an instruction set in the version before", changed(b"program 9", b"isa rv32imc\nprogram 9"),
     "line 2: a line of `sweep 2` in a table of `sweep 1`: isa rv32imc"),
    ("another instruction set", changed(b"sweep 1\n", b"sweep 2\nisa rv32gc\n"),
     "line 2: not one of rv32imc, rv32imac: isa rv32gc"),
    ("the usual instruction set", changed(b"sweep 1\n", b"sweep 2\nisa rv32im\n"), "line 2: not one of rv32imc, rv32imac: isa rv32im"),
    ("a heap region in the version before", changed(b"program 9", b"heap-region 0x30000000\nprogram 9"),
     "line 2: a line of `sweep 2` in a table of `sweep 1`: heap-region 0x30000000"),
    ("the usual heap region", changed(b"sweep 1\n", b"sweep 2\nheap-region 0x40000000\n"),
     "line 2: no region that has a line: heap-region 0x40000000"),
    ("no heap region", changed(b"sweep 1\n", b"sweep 2\nheap-region 0xe0000000\n"),
     "line 2: no region that has a line: heap-region 0xe0000000"),
    ("a heap region in another form", changed(b"sweep 1\n", b"sweep 2\nheap-region 805306368\n"),
     "line 2: `heap-region BEGIN` comes here, and not heap-region 805306368"),
    ("a stack region of too few bytes", changed(b"sweep 1\n", b"sweep 2\nstack-region 0x00010000..0x0001f000\n"),
     "line 2: no region that has a line: stack-region 0x00010000..0x0001f000"),
    ("regions that overlap", changed(b"sweep 1\n", b"sweep 2\nheap-region 0x30000000\nstack-region 0x4fff0000..0x50000000\n"),
     "line 3: regions that overlap: stack-region 0x4fff0000..0x50000000"),
    ("regions in the other order", changed(b"sweep 1\n", b"sweep 2\nstack-region 0x00010000..0x00020000\nheap-region 0x30000000\n"),
     "line 3: "),
    ("no instruction set", changed(b"sweep 1\n", b"sweep 2\nisa \n"), "line 2: `isa NAME` comes here, and not isa "),
    ("a line of the head that there is not", changed(b"step 100", b"places 5\nstep 100"), "`step N` comes here, and not places 5"),
    ("the form before this one", lambda it: b"#\tinput\tall\t9\tx\ty\t1:2\t\t0..1\t3\nunedited\t-\n",
     "replaycheck explore --table"),
    ("another file", lambda it: b"\x7fELF\x01\x1b[31m\n", "no table of a sweep: it begins with \\x7fELF\\x01\\x1b[31m"),
    ("no digest", changed(b"input 6 ", b"input six "), "line 3: `input LEN SHA256` comes here"),
    ("files in another order", changed(b"supp 0", b"input 0"), "`supp LEN SHA256` comes here"),
    ("no range", changed(b"bytes 0..5 3,5,7\n", b""), "neither bytes nor words"),
    ("a range the wrong way round", changed(b"bytes 0..5", b"bytes 5..0"), "ends before it begins"),
    ("a value twice", changed(b"3,5,7", b"3,5,3"), "a value twice"),
    ("a part that is none", changed(b"part 1/1", b"part 2/1"), "no part"),
    ("an outcome out of turn", changed(b"outcome 1\n", b"outcome 2\n"), "outcome 1 comes here"),
    ("an outcome again", lambda it: it.replace(b"outcome 1\n" + it.split(b"outcome 1\n")[1].split(b"\ninput")[0],
                                               b"outcome 1\nexited 0", 1), "outcome 1 is outcome 0"),
    ("no state", changed(b"exited 0", b"left 0"), "a state comes here"),
    ("an error that there is not", changed(b"Invalid read of size 1", b"Invalid read of size 3"), "an error, a leak"),
    ("a frame out of turn", changed(b"   by 0x00010028", b"   at 0x00010028"), "a frame out of turn"),
    ("a frame without a name", changed(b"   at 0x00010044: total", b"   at 0x00010044: "), "a frame comes here"),
    ("control bytes in a name", changed(b"total", b"t\x1b[2Jl"), "t\\x1b[2Jl"),
    ("control bytes in a row", changed(b"input 1 5", b"input 1\x1b 5"), "input 1\\x1b 5"),
    ("no row", changed(b"input 1 5", b"inputs 1 5"), "line "),
    ("an edit twice, with two outcomes", changed(b"input 1 5 ", b"input 1 3 "), "the edit `input 1 3` stands there twice"),
    ("a place again", changed(b"input 2 3", b"input 1 9"), "more edits of a place than 3"),
    ("a gap in a place", lambda it: without(it, b"input 2 3", b"input 2 5"), "a gap"),
    ("a byte without edits", lambda it: without(it, b"input 2 3", b"input 2 5", b"input 2 7"), "a gap: no edit of byte 2"),
    ("the last byte without edits", lambda it: without(it, b"input 5 3", b"input 5 5", b"input 5 7"), "a gap: no edit of byte 5"),
    ("places out of turn", changed(b"input 2 3", b"input 0 9"), "an edit out of turn"),
    ("a byte outside", changed(b"input 5 3", b"input 6 3"), "outside of the sweep"),
    ("an outcome that isn't there", lambda it: it.replace(b"input 5 7 ", b"input 5 7 9", 1), "comes here"),
    ("a wrong tally", lambda it: it.replace(b"tally 1 ", b"tally 1 1", 1), "`tally 1 "),
    ("a wrong end", changed(b"end 18 ", b"end 19 "), "`end 18 "),
    ("something behind the end", lambda it: it + b"input 0 3 0\n", "behind the end"),
    ("an empty line", changed(b"unedited 0\n", b"unedited 0\n\n"), "an empty line"),
    ("a length without an end", changed(b"program 9", b"program " + HUGE), "line 2"),
    ("an offset without an end", changed(b"input 1 5", b"input " + HUGE + b" 5"), "line "),
    ("a tally without an end", changed(b"tally 0 ", b"tally 0 " + HUGE), "line "),
    ("sides in the version before", changed(b"step 100", b"sides yes\nstep 100"),
     "line 6: a line of `sweep 2` in a table of `sweep 1`: sides yes"),
    ("sides of steps", with_sides(b"", b"steps 0..5 skip\nsides yes\n"), "of edits of bytes only: sides yes"),
    ("no sides", with_sides(b"", b"sides no\n"), "`steps A..B MODELS`, as in each table of `sweep 2`, comes here"),
    ("sides unasked", changed(b"end 18", LINE + b"end 18"), "`end 18 "),
    ("a digit that there isn't", with_sides(LINE.replace(b"3", b"4")), "`sides ADDR DIGITS` comes here"),
    ("a line of 65 digits", with_sides(LINE.replace(b"0 0", b"0 00")), "`sides ADDR DIGITS` comes here"),
    ("a line of zeros", with_sides(b"sides 0x00010000 " + b"0" * 64 + b"\n"), "a line out of turn"),
    ("a line of sides again", with_sides(LINE + LINE), "a line out of turn"),
    ("a line of sides within another", with_sides(LINE + LINE.replace(b"10000", b"100fc")), "a line out of turn"),
    ("a line behind a short one", with_sides(LINE.replace(b"0123", b"", 1) + LINE.replace(b"10000", b"10100")), "a line out of turn"),
    ("steps that are no number", lambda it: it[:it.rindex(b" ")] + b" -\n", "`end 18 "),
    ("a number of 14 digits for a step", changed(b"step 100", b"step 10000000000000"), "a step above 2147483647"),
    ("a range of bytes too far", changed(b"bytes 0..5", b"bytes 0..5000000"), "a place above"),
]


def without(table, *edits):
    """A table without rows."""
    return b"\n".join(line for line in table.split(b"\n") if not line.startswith(tuple(edit + b" " for edit in edits)))


# Command lines that are refused: label, words, what is said.
REFUSED = [
    ("no word", [], "no FILE"), ("an option twice", ["p.elf", "--step=1", "--step=2"], "--step is given twice"),
    ("a step too great", ["p.elf", "--step=2147483648"], "--step: '2147483648' is not a number from 0 to 2147483647"),
    ("no limit", ["p.elf", "--limit=0"], "--limit: '0' is not a number from 1 to 2147483647"),
    ("a limit too great", ["p.elf", "--limit=2147483648"], "--limit: '2147483648' is not a number from 1 to 2147483647"),
    ("a step and a limit", ["p.elf", "--step=1", "--limit=2"], "--step and --limit at once"),
    ("a limit without a file", ["--from", "a", "--limit=2"], "--from takes tables that are there: --limit makes them"),
    ("a step of tables", ["--from", "a", "--step=0"], "--from takes tables that are there: --step makes them"),
    ("a heap of tables", ["p.elf", "--from", "a", "--require-heap"], "--from takes tables that are there: --require-heap makes them"),
    ("a script with outputs", ["p.elf", "--script=slurm", "--goal=exited", "--svg=s", "--html=h", "--jobs=2"],
     "--script prints a script and runs nothing: not with --goal --svg --html --jobs"),
    ("a page without a file", ["--from", "a", "--html=h"], "--html goes with a FILE"),
    ("two files", ["p.elf", "q.elf"], "unrecognized arguments: q.elf"),
    ("an option that there was once", ["p.elf", "--exits"], "unrecognized arguments: --exits"),
    ("an instruction set that there isn't", ["p.elf", "--isa=rv32gc"],
     "--isa: invalid choice: 'rv32gc' (choose from 'rv32im', 'rv32imc', 'rv32imac')"),
    ("a heap region that can't be", ["p.elf", "--heap-region=0xe0000000"],
     "--heap-region: '0xe0000000' is not a multiple of 0x10000000 from 0x10000000 to 0xd0000000"),
    ("regions that overlap", ["p.elf", "--heap-region=0x70000000", "--stack-region=0x7f000000..0x80000000"],
     "heap region and stack region overlap: --heap-region 0x70000000 --stack-region 0x7f000000..0x80000000"),
    ("regions without a file", ["--from", "a", "--stack-region=0x10000..0x20000"], "--stack-region goes with a FILE"),
    ("an instruction set without a file", ["--from", "a", "--isa=rv32imc"], "--isa goes with a FILE"),
    ("values that there were once", ["p.elf", "--bytes=0", "--values=nops"], "neither all, flips, edges nor a list"),
    ("values of bytes for words", ["p.elf", "--code=main", "--values=flips"], "--words-values"),
    ("values of words for bytes", ["p.elf", "--words-values=flips"], "goes with --words or --code"),
    ("two kinds of words", ["p.elf", "--code=main", "--words=0"], "at once"),
    ("steps without models", ["p.elf", "--at=0..9"], "--at needs --faults, a list of skip, registers, pc, words, memory, zero, ones"),
    ("models without steps", ["p.elf", "--faults=skip"], "--faults goes with --at"),
    ("a range of code without steps", ["p.elf", "--code-range=0..9"], "--code-range goes with --at"),
    ("pairs without steps", ["p.elf", "--pairs=skip"], "--pairs goes with --at"),
    ("an unknown model", ["p.elf", "--at=0", "--faults=skip,heap"],
     "--faults: an unknown fault model: 'heap'; there are skip, registers, pc, words, memory, zero, ones"),
    ("a model twice", ["p.elf", "--at=0", "--faults=pc,skip,pc"], "a fault model twice"),
    ("no model", ["p.elf", "--at=0", "--faults="], "an unknown fault model: ''"),
    ("steps that are none", ["p.elf", "--at=9..5", "--faults=skip"], "no range: '9..5'"),
    ("other pairs", ["p.elf", "--at=0", "--faults=skip", "--pairs=pc"], "invalid choice"),
    ("a range of code without an end", ["p.elf", "--at=0", "--faults=skip", "--code-range=0x10000.."], "has an end"),
    ("two ranges of code", ["p.elf", "--at=0", "--faults=skip", "--code=main", "--code-range=0..9"], "--code and --code-range at once"),
    ("values of words for steps", ["p.elf", "--at=0", "--faults=skip", "--code=main", "--words-values=flips"],
     "--words-values goes with --words or --code"),
    ("values of bytes for steps", ["p.elf", "--at=0", "--faults=skip", "--values=flips"], "--values is for bytes"),
    ("tables and steps", ["--from", "a", "--at=0", "--faults=skip"], "--from takes tables that are there: --at --faults makes them"),
    ("steps from the end of the run on", ["use-after-free.elf", "--at=5000..", "--faults=skip"], "so there is no step to alter"),
    ("steps beyond the step of the sweep", ["packet.elf", "--at=5..10", "--faults=skip", "--step=10"],
     "--at 5..10: runs are compared at step 10, and alterations come before it: --step 11 or more"),
    ("no function for steps", ["packet.elf", "--at=5..10", "--faults=skip", "--code=nothing"], "no such function"),
    ("no range", ["p.elf", "--bytes=5..x"], "no range: '5..x'"), ("a range backwards", ["p.elf", "--bytes=5..3"], "no range"),
    ("words without an end", ["p.elf", "--words=0x10000.."], "has an end"),
    ("a value twice", ["p.elf", "--values=1,2,1"], "a number twice"), ("a value of 256", ["p.elf", "--values=256"], "from 256 on"),
    ("no value", ["p.elf", "--values=some"], "neither all, flips, edges nor a list"),
    ("tables and a range", ["--from", "a", "--bytes=0"], "--from takes tables that are there: --bytes makes them"),
    ("a seed alone", ["p.elf", "--seed=1"], "--seed goes with --sample"), ("no jobs", ["p.elf", "--jobs=0"], "not a number from 1"),
    ("two things for one output", ["p.elf", "--table=-", "--html=-"], "--table - and --html - at once"),
    ("no script", ["p.elf", "--script=x"], "invalid choice"),
    ("a missing program", ["missing.elf"], "missing.elf: No such file"), ("a folder", ["."], ".: Is a directory"),
    ("a missing input", ["packet.elf", "--input=missing"], "missing: No such file"),
    ("a missing table", ["--from", "missing"], "missing: No such file"),
    ("no function", ["packet.elf", "--code=nothing"], "no such function"),
    ("no program's file", ["packet.input", "--input=packet.input"], "image refused 20: no ELF file"),
    ("no program's file, for a script", ["packet.input", "--input=packet.input", "--script=slurm"], "image refused 20: no ELF file"),
    ("no program's file, and only words", ["packet.input", "--words=0x10000"], "image refused 20: no ELF file"),
    ("no program's file, and only words at a step", ["packet.input", "--words=0x10000", "--step=9"], "image refused 20: no ELF file"),
    ("a byte outside", ["packet.elf", "--input=packet.input", "--bytes=8"], "bytes refused 3: no such byte of the input"),
    ("an empty input", ["packet.elf", "--input=/dev/null"], "/dev/null: it is empty, so there is no byte to edit"),
    ("no input", ["packet.elf"], "no input to edit: --input FILE gives one, --code NAME edits instructions"),
    ("bytes of no input", ["packet.elf", "--bytes=0"], "no input to edit"),
    ("an input that is never read", ["three-words.elf", "--input=packet.input"],
     "reads none of the 8 bytes of packet.input up to step 10000, so no edit of them changes it"),
    ("a table over the program", ["packet.elf", "--input=packet.input", "--table=packet.elf"],
     "--table packet.elf: it would overwrite the program"),
    ("a table over the input, by another name", ["packet.elf", "--input=packet.input", "--table=./linked.input"],
     "--table ./linked.input: it would overwrite the input"),
    ("a picture over the suppressions", ["packet.elf", "--input=packet.input", "--supp=known.supp", "--svg=known.supp"],
     "--svg known.supp: it would overwrite the suppressions"),
    ("a picture over a table that is read", ["--from", "known.supp", "--svg=known.supp"],
     "--svg known.supp: it would overwrite a table that is read"),
    ("a table over a table that is read", ["--from", "known.supp", "--table=known.supp"],
     "--table known.supp: it would overwrite a table that is read"),
    ("a page over the input", ["packet.elf", "--input=packet.input", "--html=packet.input"],
     "--html packet.input: it would overwrite the input"),
    ("a table over a kept part", ["packet.elf", "--input=packet.input", "--keep=k", "--table=k/part-1-of-4"],
     "--table k/part-1-of-4: it would overwrite a part that --keep keeps"),
    ("a table and a picture in one file", ["packet.elf", "--input=packet.input", "--table=x", "--svg=./x"],
     "--table and --svg: both would write ./x"),
    ("no such word", ["packet.elf", "--input=packet.input", "--words=0x90000000"],
     "words refused 4: no word of the loaded program"),
    ("bad suppressions", ["packet.elf", "--input=packet.input", "--supp=packet.input"], "suppressions refused 13"),
    ("a picture that can't be", ["packet.elf", "--input=packet.input", "--bytes=7", "--values=flips", "--svg=no/picture"],
     "no/picture: No such file"),
]
