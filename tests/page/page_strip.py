"""The cases of test-page about the run in time: its cells and marks beside what the program replies to looks, two runs and where they part,
long runs, deep and damaged stacks, hostile names, keys, pointers and fingers."""
import itertools
import json
import pathlib
import random
import subprocess
import tempfile

from guest_files import ENTRY, elf
from page_bench import expect, same, words_of
from page_firsts import contrast_of
from page_hands import touch
from replaycheck.guest.assembly import assemble
from replaycheck.guest.elf import Elf

DONE = ("replaycheck.strip.runs.length === {} && !replaycheck.strip.next && replaycheck.strip.runs.every((it) => it.isDone)"
        " && !replaycheck.strip.isStale")
# What the strip has of its runs: each cell by its row, its steps and its name, and each mark.
MODEL = """replaycheck.strip.runs.map((run) => ({ every: run.every, last: run.last,
  marks: [...run.marks, ...run.errors].map(({ step, what, count }) => [step, what, count ?? null]),
  cells: run.stretches.flatMap(({ calls }) => calls.rows.flatMap((row, depth) => row.begins.map((_, i) => {
    const it = calls.cell(depth, i);
    return [depth, it.begin, it.end, calls.names.of(it)]; }))) }))"""
# The names of the cells at a step, the outermost first.
AT = """((step) => { const { calls } = replaycheck.strip.runs.at(-1).stretchAt(step);
  return calls.rows.map((_, row) => calls.cellAt(row, step)).filter(Boolean).map((it) => calls.names.of(it)); })"""
TOLD = "document.getElementById('strip-told').textContent"
VIEW = "[replaycheck.strip.view.from, replaycheck.strip.view.to]"
EVERYWHERE = "0 0xffffffff"
MOST_FRAMES = 256  # calls that haven't returned, of which the program knows the newest
# What a step does to blocks, by whether one comes and whether one goes.
DOES = {(True, True): "resize", (True, False): "alloc", (False, True): "free", (False, False): "heap"}
FIRST_HEAP_CALL, NUMBER, FIRST = 2001, 17, 10  # of the environment; the registers that have the number of a call, and its first parameter
FREE = ("free", FIRST_HEAP_CALL + 1)  # by its name, or by its number


class Native:
    """What the program replies about a run."""

    def __init__(self, bench, words, lines):
        self.program, self.words, self.lines = bench.program, words, lines
        self.functions = functions_of(pathlib.Path(words[0]).read_bytes())

    def look(self, *asked):
        """The lines of the replies after those to the edits."""
        text = "".join(f"{it}\n" for it in [*self.lines, *asked])
        ran = subprocess.run([self.program, "look", *self.words], input=text, capture_output=True, text=True, check=True)
        rows = ran.stdout.splitlines()
        expect(rows[:len(self.lines)] == ["ok"] * len(self.lines), f"the program replies {rows[:9]}")
        return rows[len(self.lines):]

    def events(self, begin, end):
        """The lines of `look calls` on a stretch."""
        rows = self.look(f"goto {end}", f"look calls {begin} {end}")[1:]
        return rows[:-1] if rows[-1] == "end" else rows[:-1] + self.events(int(rows[-1].split(" ")[1]), end)

    def stacks(self, steps):
        """The names of the functions of the stacks at some steps, the outermost first."""
        rows = self.look(*(line for it in steps for line in (f"goto {it}", "look stack")))[1::2]
        return [[self.name(int(it, 16)) for it in reversed(row.split(" ")[1:])] for row in rows]

    def errors(self, end):
        """The steps with an error, suppressed or not."""
        found, begin = [], 0
        while (row := self.look(f"goto {begin}", f"look next error {EVERYWHERE} {end}")[-1]) != "none":
            found.append(int(row.split(" ")[1]))
            begin = found[-1] + 1
        return found

    def name(self, address, instead="???"):
        return next((name for name, begin, size in self.functions if begin <= address < begin + size), instead)

    def cells(self, events, last):
        """The cells of a whole run: by its row, its steps and its name."""
        first = int(self.look("goto 0", "look stack")[-1].split(" ")[1], 16)
        calls, cells = [(0, self.name(first))], []
        for line in events:
            step, what, *rest = line.split(" ")
            if what == "call":
                calls.append((int(step) + 1, self.name(int(rest[0], 16), rest[0])))
            if what in ("call", "return", "heap"):
                while len(calls) - 1 > int(rest[-1]):
                    begin, name = calls.pop()
                    cells.append([len(calls), begin, int(step) + 1, name])
        return sorted(cells + [[row, begin, last, name] for row, (begin, name) in enumerate(calls)])

    def blocks(self, step, begin=0):
        """The blocks before a step, as lines of `look blocks`."""
        *rows, last = self.look(f"goto {step}", f"look blocks {begin}")[1:]
        return rows + ([] if last == "end" else self.blocks(step, int(last.split(" ")[1], 0)))

    def live(self, step):
        return {row.split(" ")[1] for row in self.blocks(step) if row.split(" ")[3] == "live"}

    def heap_mark(self, step):
        """What a call of the heap does to blocks, None for a free of 0."""
        rows = self.look(f"goto {step}", "look registers")[1:]
        name, (number, first) = self.name(int(rows[0].split(" ")[2], 16)), (int(rows[it].split(" ")[1], 16) for it in (NUMBER, FIRST))
        if first == 0 and (name == FREE[0] or (name not in ("malloc", "calloc", "realloc") and number == FREE[1])):
            return None
        before, after = self.live(step), self.live(step + 1)
        return DOES[bool(after - before), bool(before - after)]

    def marks(self, events, last):
        """The marks of a run: what the heap does is by the blocks that are live before and after."""
        marks = [[it, "error", None] for it in self.errors(last)]
        for line in events:
            step, what, *rest = line.split(" ")
            if what == "heap":
                does = self.heap_mark(int(step))
                marks += [[int(step), does, None]] if does else []
            elif what in ("input", "output"):
                marks.append([int(step), what, int(rest[0])])
        return sorted(marks)


def functions_of(content):
    """The functions of a file: their names, addresses and sizes, by its symbol table."""
    elf = Elf(content)
    return sorted(((elf.name(it), it.value, it.size) for it in elf.functions if it.size), key=lambda it: it[1])


def edited(bench, page, lines, runs):
    """Has a page use lines, and waits for its strip of so many runs."""
    page.run(f"replaycheck.use({json.dumps(chr(10).join(lines))})")
    bench.settle(page)
    page.until(DONE.format(runs), 60)


def given(bench, page, program, runs=1):
    """Opens a program as a user's, and waits for its strip."""
    bench.give(page, {"program": program})
    bench.settle(page)
    page.until(DONE.format(runs), 60)


# ---- cells, marks, and where runs part

# An example, lines, and whether their events differ from those of the unedited run.
RUNS = [
    ("station", [], None), ("station", ["input 1 8"], True), ("station", ["input 37 5"], True), ("station", ["input 2 0x48"], False),
    ("boot", [], None), ("boot", ["input 5 7"], True), ("boot for rv32imc", ["input 5 7"], True), ("kinds", ["input 0 1"], True),
    ("kinds", ["input 0 3"], False), ("kinds", ["input 0 5"], True), ("use-after-free", [], None), ("use-after-free", ["skip 3"], True),
]


def blocks_that_were(native, last):
    """How many blocks a run has had, and how many of these it has freed."""
    rows = native.blocks(last)
    return [len(rows), sum(row.split(" ")[3] == "freed" for row in rows)]


def key_of_blocks(page):
    """The same by the strip's own count. A block that is resized is another one, and the old one is freed."""
    told = page.run("[...document.querySelectorAll('#strip-key li')].map((it) => it.textContent)")
    counts = {kind: int(text.split(" ")[0].replace(",", "")) for text in told for kind in ("allocated", "freed", "resized") if kind in text}
    allocated, freed, resized = (counts.get(it, 0) for it in ("allocated", "freed", "resized"))
    return [allocated + resized, freed + resized]


def cells_and_marks(bench):
    """Cells, marks and stacks are those of the program's replies, and two runs part at the first event that differs."""
    chance = random.Random(3)
    for example, lines, differs in RUNS:
        label = f"{example} {lines}"
        with bench.open(example) as page:
            edited(bench, page, lines, 1 + (differs is not None))
            told = page.run(MODEL)
            events = []
            for it, edits in zip(told, ([], lines)):
                native = Native(bench, words_of(example), edits)
                events.append(native.events(0, it["last"]))
                same(f"cells of {label}", sorted(it["cells"]), native.cells(events[-1], it["last"]))
                same(f"marks of {label}", sorted(it["marks"]), native.marks(events[-1], it["last"]))
            same(f"blocks of {label}", key_of_blocks(page), blocks_that_were(native, told[-1]["last"]))
            calls = {int(line.split(" ")[0]) for line in events[-1] if " heap " in line}
            steps = [it for it in (chance.randrange(told[-1]["last"]) for _ in range(40)) if it not in calls]
            same(f"stacks of {label}", [page.run(f"{AT}({it})") for it in steps], native.stacks(steps))
            if differs is not None:
                one, other = events
                pairs = [it for it in itertools.zip_longest(one, other) if it[0] != it[1]]
                parting = min(int(it.split(" ")[0]) for it in pairs[0] if it) if pairs else None
                same(f"whether {label} parts", parting is not None, differs)
                want = f"their events part at step {parting:,}" if differs else "their events are the same"
                page.until(f"document.getElementById('strip-how').textContent.includes({json.dumps(want)})", 5)
            same(f"complaints of {label}", page.complaints(), [])


def edits_of_the_strip(bench):
    """An edit's run is beside the unedited one, until it is taken back. What is shown meanwhile looks stale, and a reading that isn't
    wanted any more ends."""
    with bench.open() as page:
        page.until(DONE.format(1), 60)
        page.run("(() => { globalThis.plain = replaycheck.strip.plain; })()")
        edited(bench, page, ["input 1 8"], 2)
        stale = page.run("""(async () => { globalThis.before = replaycheck.strip.edited; replaycheck.use('input 1 9');
          await new Promise(requestAnimationFrame);
          return document.getElementById('strip-frame').classList.contains('stale'); })()""")
        expect(stale, "a strip of before the edit isn't stale")
        page.until(DONE.format(2), 60)
        same("the run before the last edit, and the unedited one", page.run("[before.isWanted, plain === replaycheck.strip.plain]"),
             [False, True])
        same("the edit of the strip", page.run("replaycheck.strip.edited.scenario.lines"), ["input 1 9"])
        for lines, errors in ((["input 1 8"], 1), (["input 1 8", "supp add Addr1 fun:set_name"], 0)):
            edited(bench, page, lines, 2)
            same(f"errors of {lines}", page.run("replaycheck.strip.edited.errors.length"), errors)
        page.click_on("#undo")
        page.click_on("#undo")
        page.click_on("#undo")
        page.click_on("#undo")
        bench.settle(page)
        page.until(DONE.format(1), 60)
        same("sessions that the page shares with the strip", page.run("replaycheck.strip.sessions.filter((it) => "
             "[replaycheck.opened.session, replaycheck.opened.unedited, replaycheck.opened.search].includes(it)).length"), 0)
        page.run("(() => { globalThis.left = replaycheck.strip.sessions; replaycheck.opening.choose('packet'); })()")
        page.until("document.title.startsWith('packet.elf')", 20)
        bench.settle(page)
        page.until(DONE.format(1), 60)
        same("sessions of another program", page.run("left.map((it) => it.isClosed && it.helper === null)"), [True, True])


# ---- long runs

# A turn calls a function that calls another one twice: 14 steps with six events, as long as a counter says.
TURNS = """lui s0, {high}; addi s0, s0, {low}
           again: jal ra, first; addi s0, s0, -1; bne s0, zero, again; li a0, 0; li a7, 93; ecall
           first: addi sp, sp, -16; sw ra, 12(sp); jal ra, second; jal ra, second; lw ra, 12(sp); addi sp, sp, 16; jalr zero, 0(ra)
           second: addi a1, zero, 3; jalr zero, 0(ra)"""
STEPS_A_TURN = 14


def turning(steps):
    """A program of so many steps, with functions by their names."""
    turns = steps // STEPS_A_TURN
    words = assemble(TURNS.format(high=(turns + 0x800) >> 12, low=(turns + 0x800) % 4096 - 0x800))
    return elf(words, 0x4000, symbols=[("_start", ENTRY, 32), ("first", ENTRY + 32, 28), ("second", ENTRY + 60, 8)])


# Has another edit while the run of one is read.
READ_WHILE_READING = """(async () => { const { strip } = replaycheck, begin = strip.begin;
  globalThis.made = [];
  strip.begin = function (...it) { made.push(begin.apply(this, it)); return made.at(-1); };
  replaycheck.use('mark 1 0x20000 4 undefined');
  while (!made[0]?.isBegun) await new Promise((done) => { setTimeout(done, 1); });
  replaycheck.use('mark 2 0x20000 4 undefined'); })()"""


def long_runs(bench):
    """A long run is sampled, which the page says: its stacks at these steps are the program's. A stretch of it is read whole."""
    content = turning(900000)
    with bench.page() as page, tempfile.TemporaryDirectory() as folder:
        path = pathlib.Path(folder, "program")
        path.write_bytes(content)
        given(bench, page, content)
        told, native = page.run(MODEL)[0], Native(bench, [str(path)], [])
        expect(880000 < told["last"] < 920000, f"it has {told['last']} steps")
        same("its samples", told["every"], 1024)
        page.until("document.getElementById('strip-how').textContent.includes('sampled at every 1,024th step')", 5)
        steps = [1024 * it for it in range(0, told["last"] // 1024, 9)]
        same("stacks that are sampled", [page.run(f"{AT}({it})") for it in steps], native.stacks(steps))
        page.run("replaycheck.strip.view.place(500000, 2000)")
        page.run("replaycheck.strip.moved()")
        page.until("replaycheck.strip.plain.part", 20)
        begin, end = page.run("[replaycheck.strip.plain.part.from, replaycheck.strip.plain.part.to]")
        expect(begin <= 500000 and end >= 502000, f"steps {begin} to {end} are whole")
        page.until(f"document.getElementById('strip-how').textContent.includes('all calls of steps {begin:,} to {end - 1:,}')", 5)
        chosen = random.Random(4).sample(range(begin, end), 100)
        same("stacks of a stretch", [page.run(f"{AT}({it})") for it in chosen], native.stacks(chosen))
        page.run(READ_WHILE_READING)
        page.until(DONE.format(2), 60)
        same("runs that are read, and whether the first was read to its end", page.run("[made.length, made[0].isWanted, made[0].isRead]"),
             [2, False, False])
        same("the run that is shown", page.run("replaycheck.strip.edited.scenario.lines"), ["mark 2 0x00020000 4 undefined"])
        page.until("document.getElementById('strip-how').textContent.includes('at the sampled steps their stacks are the same')", 5)
        same("complaints", page.complaints(), [])


# ---- stacks that are no stacks

# Functions that are deeper than what is known, and return from there; some that call and return there again and again, and then go deeper;
# returns that leave a caller out, and that go elsewhere.
DEEP = """li s0, 300; jal ra, down; li a0, 0; li a7, 93; ecall
          down: addi sp, sp, -16; sw ra, 12(sp); addi s0, s0, -1; beq s0, zero, up; jal ra, other
          up: lw ra, 12(sp); addi sp, sp, 16; jalr zero, 0(ra)
          other: addi sp, sp, -16; sw ra, 12(sp); addi s0, s0, -1; beq s0, zero, over; jal ra, down
          over: lw ra, 12(sp); addi sp, sp, 16; jalr zero, 0(ra)"""
BOUNCE = """li s0, 300; li s1, 200; li s2, 42; jal ra, down; li a0, 0; li a7, 93; ecall
            down: addi sp, sp, -16; sw ra, 12(sp); addi s0, s0, -1; beq s0, zero, up; jal ra, other
            up: lw ra, 12(sp); addi sp, sp, 16; jalr zero, 0(ra)
            other: addi sp, sp, -16; sw ra, 12(sp); addi s0, s0, -1; beq s0, zero, turn; jal ra, down
            over: lw ra, 12(sp); addi sp, sp, 16; jalr zero, 0(ra)
            turn: beq s1, zero, over
            again: jal ra, leaf; addi s1, s1, -1; bne s1, zero, again; mv s0, s2; jal ra, down; j over
            leaf: jalr zero, 0(ra)"""
LEAVES = "jal ra, first; end: j end; first: mv s0, ra; jal ra, second; second: mv ra, s0; jalr zero, 0(ra)"
ASTRAY = "jal ra, first; nop; li a0, 0; li a7, 93; ecall; first: mv s0, ra; jal ra, second; second: addi ra, s0, 4; jalr zero, 0(ra)"
NOWHERE = "jal ra, first; first: jal ra, second; second: lui ra, 0x50000; jalr zero, 0(ra)"
# A program, its functions, and what part of the stacks is known at least.
DAMAGED = [
    ("deeper than what is known", DEEP, [("_start", 0, 20), ("down", 20, 32), ("other", 52, 32)], .8),
    ("calls there", BOUNCE, [("_start", 0, 28), ("down", 28, 32), ("other", 60, 60), ("leaf", 120, 4)], .3),
    ("a return from two calls", LEAVES, [("_start", 0, 8), ("first", 8, 8), ("second", 16, 8)], 1),
    ("a return to another place", ASTRAY, [("_start", 0, 20), ("first", 20, 8), ("second", 28, 8)], 1),
    ("a return to nowhere", NOWHERE, [("_start", 0, 4), ("first", 4, 4), ("second", 8, 8)], 1),
    ("no symbols", LEAVES, [], 1),
]


def damaged_stacks(bench):
    """If a stack is too deep to be known, or a program returns elsewhere, the strip has the functions of the program's stack, or says of
    one that it isn't known."""
    with bench.page() as page, tempfile.TemporaryDirectory() as folder:
        for label, text, functions, least in DAMAGED:
            path = pathlib.Path(folder, "program")
            path.write_bytes(elf(assemble(text), 0x4000, symbols=[(name, ENTRY + at, size) for name, at, size in functions]))
            given(bench, page, path.read_bytes())
            native, steps = Native(bench, [str(path)], []), range(0, min(6000, page.run("replaycheck.strip.plain.last")), 7)
            newest = -1 if text == ASTRAY else None  # a cell has the name of the function that was called
            wants = native.stacks(steps)
            known, first_deep = 0, next((it for it, want in zip(steps, wants) if len(want) > MOST_FRAMES), None)
            for at, want in zip(steps, wants):
                got = page.run(f"{AT}({at})") if functions else ["???" for _ in page.run(f"{AT}({at})")]
                may_miss = first_deep is not None and at > first_deep
                seen = [other if it == "???" and may_miss else it for it, other in zip(got, want)] if len(got) == len(want) else got
                expect(seen[:newest] == want[:newest] or len(want) > MOST_FRAMES, f"{label}: step {at}: {got} and not {want}")
                known += got[:newest] == want[:newest]
            expect(known >= least * len(steps), f"{label}: {known} of {len(steps)} stacks are known")
            same(f"{label}: what is told", page.text("notice"), "")
        same("complaints", page.complaints(), [])


def hostile_names(bench):
    """Names with markup, of great length, in other scripts and of nothing are text, and cost no time."""
    names = ["<img/src=x/onerror=globalThis.hacked=1>", "\u202egnihton", "x" * 4000, "\u0430\u0301\U0001F980 \t\n"]
    for name in names:
        content = elf(assemble(LEAVES), 0x4000, symbols=[("_start", ENTRY, 8), (name, ENTRY + 8, 8), (name[::-1], ENTRY + 16, 8)])
        with bench.page() as page:
            given(bench, page, content)
            page.focus("strip")
            page.press("Home", "ArrowDown", "Home")
            expect(name[:100] in page.run(TOLD), f"{page.run(TOLD)[:200]!r} doesn't name {name[:20]!r}")
            expect(len(page.run(TOLD)) < 400, f"{len(page.run(TOLD))} letters are told")
            spent = page.run("(() => { const begun = performance.now(); replaycheck.strip.renew(); return performance.now() - begun; })()")
            expect(spent < 200, f"a name of {len(name)} letters costs {spent} ms")
            same("elements of the markup, and what it did", page.run("[document.querySelectorAll('#strip-part img').length, "
                                                                     "globalThis.hacked ?? null]"), [0, None])
            same("complaints", page.complaints(), [])


# ---- keys, pointers, fingers

# Keys, one after another, and what is told then: of the station, at whose end the page is.
KEYS = [
    ("", "_exit: steps 867 to 881"), ("Home", "main: steps 39 to 865, depth 1, in _start"),
    ("ArrowDown", "read: steps 53 to 55, depth 2, in main"), ("ArrowRight", "parse: steps 60 to 676, depth 2, in main"),
    ("ArrowLeft", "read: steps 53 to 55"), ("End", "drop: steps 836 to 860"), ("ArrowUp", "main: steps 39 to 865"),
    ("ArrowUp", "_start: steps 0 to 881"), ("ArrowUp", "step 828 writes 14 bytes"), ("End", "step 855: free of 0x40000010"),
    ("ArrowLeft", "step 852: free of 0x40000040"), ("Home", "step 54 reads 41 bytes"), ("ArrowRight", "step 116: malloc of 8 bytes"),
    ("ArrowDown", "_start: steps 0 to 881"),
]


def strip_by_keys(bench):
    """The strip by keys alone: along a row, to other rows, to marks; to a step; in and out."""
    with bench.open() as page:
        page.until(DONE.format(1), 60)
        page.run("document.getElementById('strip').scrollIntoView({ block: 'center' })")
        page.focus("strip")
        for key, told in KEYS:
            if key:
                page.press(key)
            expect(told in page.run(TOLD), f"{key or 'the focus'} leads to {page.run(TOLD)!r}, and not to {told!r}")
        page.press("ArrowUp", "Enter")
        bench.settle(page)
        expect(page.run("replaycheck.step") in (54, 116), f"Enter leads to step {page.run('replaycheck.step')}")
        page.press("+", "+", "+")
        begin, end = page.run(VIEW)
        expect(100 < end - begin < 120 and begin <= 54 + 62 and end >= 54, f"+ shows steps {begin} to {end}")
        page.press("PageDown")
        expect(page.run(VIEW)[0] > begin, "PageDown doesn't move on")
        page.press("-")
        expect(page.run(f"((it) => it[1] - it[0])({VIEW})") > end - begin, "- doesn't show more")
        page.press("0")
        same("what 0 shows", page.run(VIEW), [0, 882])
        page.press("ArrowDown", "ArrowDown", "End", "+", "+", "+", "Home")
        begin, end, step = page.run("(({ view, here }) => [view.from, view.to, here.step])(replaycheck.strip)")
        expect(step == 39 and begin <= step <= end, f"the focus is at step {step}, and steps {begin} to {end} are shown")
        page.press("0")
        for button, wide in (("strip-in", 441), ("strip-in", 220.5), ("strip-out", 441), ("strip-all", 882)):
            page.click_on(f"#{button}")
            same(f"the steps that {button} shows", page.run(f"((it) => it[1] - it[0])({VIEW})"), wide)
        edited(bench, page, ["goto 600", "input 1 8"], 2)
        page.focus("strip")
        page.press("Home", *["ArrowUp"] * 9)
        same("the uppermost run", page.run("[replaycheck.strip.here.index, replaycheck.strip.here.row]"), [0, -1])
        page.press(*["ArrowDown"] * 9)
        same("the run below it", page.run("replaycheck.strip.here.index"), 1)
    with bench.page() as page:
        given(bench, page, elf(assemble(DEEP), 0x4000))
        page.focus("strip")
        page.press("Home", *["ArrowDown"] * 20)
        row, top, rows = page.run("(({ here, top, rows }) => [here.row, top, rows])(replaycheck.strip)")
        expect(row >= 20 and top <= row < top + rows, f"row {row} has the focus, and {rows} from {top} on are shown")
        page.until(f"document.getElementById('strip-how').textContent.includes('depths {top} to {top + rows - 1} of 0 to 256')", 5)


def placed(page):
    """Where the strip is, once nothing above it moves any more: its left edge, its top and its width."""
    page.until(DONE.format(1), 60)
    page.until("replaycheck.steps.landmarks.some((it) => it.kinds.includes('end'))", 20)
    page.run("document.getElementById('strip').scrollIntoView({ block: 'center' })")
    return page.run("(({ left, top, width }) => [left, top, width])(replaycheck.strip.canvas.getBoundingClientRect())")


def strip_by_pointer(bench):
    """A click goes to the step of what is there, a drag moves, Ctrl and the wheel zoom at the pointer; two fingers zoom, one moves."""
    with bench.open() as page:
        left, top, wide = placed(page)
        place = page.run("import('./run/strip-drawing.js').then(({ LANE, ROW }) => [LANE, ROW])")

        def at(step, row):
            begin, end = page.run(VIEW)
            return left + (step + .5 - begin) / (end - begin) * wide, top + place[0] + (row + .5) * place[1]
        page.point("mouseMoved", *at(400, 2))
        expect("parse: steps 60 to 676, depth 2, in main; in it: " in page.run(TOLD), f"it says {page.run(TOLD)!r}")
        page.click(*at(60, 2))
        bench.settle(page)
        same("the step of a click where a cell begins", page.run("replaycheck.step"), 60)
        page.click(left + wide * 54.5 / 882, top + 5)
        bench.settle(page)
        same("the step of a click on a mark", page.run("replaycheck.step"), 54)
        where = at(400, 1)
        page.call("Input.dispatchMouseEvent", type="mouseWheel", x=where[0], y=where[1], deltaX=0, deltaY=-400, modifiers=2)
        page.until(f"((it) => it[1] - it[0])({VIEW}) < 400", 5)
        moved = at(400, 1)
        expect(abs(moved[0] - where[0]) < 3, f"the step at the pointer moved from {where[0]} to {moved[0]}")
        begin = page.run(VIEW)[0]
        page.point("mousePressed", *where, "left")
        page.point("mouseMoved", where[0] - 100, where[1], "left")
        page.point("mouseReleased", where[0] - 100, where[1], "left")
        expect(page.run(VIEW)[0] > begin, "a drag doesn't move")
        same("the step after a drag", page.run("replaycheck.step"), 54)
        page.call("Emulation.setTouchEmulationEnabled", enabled=True, maxTouchPoints=2)
        before = page.run(VIEW)
        y = where[1]
        touch(page, "touchStart", (left + wide * .4, y), (left + wide * .6, y))
        for it in (.35, .3, .25):
            touch(page, "touchMove", (left + wide * it, y), (left + wide * (1 - it), y))
        touch(page, "touchEnd")
        after = page.run(VIEW)
        expect((after[1] - after[0]) * 2 < before[1] - before[0], f"two fingers lead from {before} to {after}")
        touch(page, "touchStart", (left + wide * .6, y))
        for it in (.55, .5, .4):
            touch(page, "touchMove", (left + wide * it, y))
        touch(page, "touchEnd")
        expect(page.run(VIEW)[0] > after[0], f"a finger leads from {after} to {page.run(VIEW)}")
        same("complaints", page.complaints(), [])
    with bench.open(width=360) as page:
        for step in (60, 836):
            left, top, wide = placed(page)
            page.click(left + wide * (step + .5) / 882, top + place[0] + 2.5 * place[1])
            bench.settle(page)
            same("the step of a click where a cell begins in a pixel of three steps", page.run("replaycheck.step"), step)
        left, top, wide = placed(page)
        for below, told in ((place[0] / 4, "step 828 writes 14 bytes"), (place[0] * 3 / 4, "step 846: free of 0x40000070")):
            page.point("mouseMoved", left + wide * 839 / 882, top + below)
            expect(page.run(TOLD).startswith(told), f"{below} pixels below its top it says {page.run(TOLD)!r}")


# ---- what it looks like


def strip_looks(bench):
    """Names are read on each tone in light and in dark; a function has one tone; the strip is as wide as the page and no wider."""
    with bench.page() as page:
        tones = page.run("import('./sweep/colours.js').then(({ TONES }) => TONES)")
        ink = [page.run("getComputedStyle(document.body).getPropertyValue('--ink')")]
    with bench.page(dark=True) as page:
        ink.append(page.run("getComputedStyle(document.body).getPropertyValue('--ink')"))
    poor = [(it, dark) for it in tones for dark in (0, 1) if contrast_of(it[dark], ink[dark]) < 4.5]
    same("tones on which names are hard to read", poor, [])
    same("tones that are given twice", len({tuple(it) for it in tones}), len(tones))
    for width, dark in ((360, True), (1280, False), (2560, True)):
        with bench.open(width=width, dark=dark) as page:
            edited(bench, page, ["goto 300", "input 1 8"], 2)
            same(f"the width at {width}", page.run("document.documentElement.scrollWidth"), width)
            inked = page.run("""import('./sweep/colours.js').then(async ({ toneOf }) => {
              replaycheck.strip.renew();
              const { strip } = replaycheck, { topOf, LANE, ROW } = await import('./run/strip-drawing.js'), { on, scale } = strip.drawing;
              const below = (index) => scale * (topOf(index, strip.rows) + LANE + 1.5 * ROW + 6);
              const at = (index) => [...on.getImageData(strip.canvas.width / 4, below(index), 1, 1).data];
              return [toneOf('main', matchMedia('(prefers-color-scheme: dark)').matches), at(0).slice(0, 3), at(1).slice(0, 3)]; })""")
            colour = [int(inked[0][it:it + 2], 16) for it in (1, 3, 5)]
            same(f"the tone of main in both runs at {width}", inked[1:], [colour, colour])
            drawn = page.run("[...document.querySelectorAll('#strip-key .mark')].map((it) => it.className)")
            expect("mark error" in drawn and "mark alloc" in drawn and "mark input" in drawn, f"the key has {drawn}")
