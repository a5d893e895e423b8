"""The cases of test-page about the state at a step: calls, registers, memory and blocks beside the program's looks, who wrote a value, and
the step that is dragged."""
import json
import random
import subprocess
import tempfile

import firefox
from page_bench import expect, same, words_of
from page_hands import touch
from replaycheck.guest.elf import Elf
from replaycheck.guest.assembly import assemble
from guest_files import ENTRY, elf

STATION = words_of("station")
STEPS = 40  # of each program
# Programs, and lines that edit each: an input, a value at a step, a mark.
PROGRAMS = (("station", ["input 1 8", "set 300 x10 7 0xf", "write 500 0x7fffffc0 4 0x11223344"]),
            ("packet", ["input 0 9"]), ("kinds", ["input 0 5", "mark 20 0x20000 4 undefined"]),
            ("boot for rv32imc", ["input 1 9", "flip 400 x11 0xff"]), ("use-after-free", ["skip 6"]))
HEAP_FUNCTIONS = ("malloc", "free", "calloc", "realloc")
SEEN = 128  # bytes of memory
# What the parts show at a step, once it rests, for which they don't wait here.
SHOWN = """
  const later = setTimeout;
  globalThis.setTimeout = (does, time, ...given) => later(does, time === 80 ? 0 : time, ...given);
  const titles = (selector) => [...document.querySelectorAll(selector)].map((it) => it.title);
  const at = async (step) => {
    replaycheck.go(step);
    await replaycheck.refresh();
    const { machine, code } = replaycheck;
    for (let i = 0; machine.rested !== replaycheck.shown; i++) {
      if (i > 3000) throw new Error(`step ${step} never rests`);
      await new Promise((done) => later(done, 2));
    }
    return { registers: titles('#registers button'), memory: titles('#memory-rows button'), at: machine.at,
      letters: [...document.querySelectorAll('#memory-rows .letters')].map((it) => it.textContent).join(''),
      calls: [...document.querySelectorAll('#calls li')].map((it) => it.textContent),
      blocks: machine.blocks.blocks.map((it) => machine.blocks.told(it)), told: document.getElementById('blocks-told').textContent,
      now: document.querySelector('#code-rows .now td:nth-child(2)')?.textContent ?? null }; };
"""
NAMES = ["zero", "ra", "sp", "gp", "tp", "t0", "t1", "t2", "s0", "s1", *(f"a{i}" for i in range(8)), *(f"s{i}" for i in range(2, 12)),
         *(f"t{i}" for i in range(3, 7))]


# ---- what the program says


def looks(bench, words, lines):
    """The replies to lines, each a list of rows: of a list of blocks or calls up to its end."""
    text = "".join(f"{line}\n" for line in lines)
    ran = subprocess.run([bench.program, "look", *words], input=text, capture_output=True, text=True, check=True)
    rows, replies = iter(ran.stdout.splitlines()), []
    for line in lines:
        kind = line.split(" ")[1] if line.startswith("look ") else ""
        reply = [next(rows)]
        while kind in ("blocks", "calls") and not reply[-1].startswith(("end", "next")):
            reply.append(next(rows))
        reply += [next(rows) for _ in range({"registers": 31, "memory": 1}.get(kind, 0))]
        replies.append(reply)
    return replies


def all_blocks(bench, words, lines):
    """All blocks of the heap after lines."""
    rows, place = [], "0"
    while place:
        *found, last = looks(bench, words, [*lines, f"look blocks {place}"])[-1]
        rows += found
        place = last.partition(" ")[2]
    return rows


class Program:
    """A program's looks at steps, put as the page should put them."""

    def __init__(self, bench, words, lines=()):
        self.bench, self.words, self.lines = bench, words, list(lines)
        with open(words[0], "rb") as file:
            found = Elf(file.read())
        self.functions = sorted((it.value, it.value + it.size, found.name(it)) for it in found.functions if it.size)

    def name(self, address):
        return next((name for begin, end, name in self.functions if begin <= address < end), "???")

    def seen(self, step, at):
        """The replies before a step and before the one before it: registers, stack, memory from an address on, blocks; and what the step
        before has called."""
        asked = [it for step in (max(0, step - 1), step)
                 for it in (f"goto {step}", "look registers", "look stack", f"look memory {at} {SEEN}", "look blocks 0")]
        found = looks(self.bench, self.words, [*self.lines, *asked, f"look calls {max(0, step - 1)} {step}"])[len(self.lines):]
        return found[1:5], found[6:10], found[10]

    def expected(self, step, at):
        """What the page must show at a step."""
        before, now, calls = self.seen(step, at)
        since = f", changed since step {step - 1:,}"
        told = {"registers": [f"{NAMES[i]}: {value}{'' if int(undef, 16) == 0 else f', undefined bits {undef}'}"
                              f"{since if row != before[0][i] else ''}"
                              for i, row in enumerate(now[0][1:], 1) for _, value, undef in [row.split(" ")]]}
        bytes_now, bytes_before = self.bytes_in(now[2]), self.bytes_in(before[2])
        told["memory"] = [f"byte at 0x{at + i:08x}: 0x{value}{known(undef)}{since if (value, undef) != bytes_before[i] else ''}"
                          for i, (value, undef) in enumerate(bytes_now)]
        told["letters"] = "".join(chr(it) if 31 < it < 127 else "·" for it in (int(value, 16) for value, _ in bytes_now))
        told["calls"] = [f"{'by' if i else 'at'} {self.name(it)} 0x{it:08x}" for i, it in enumerate(frames_in(now[1]))]
        told["calls"][0] += self.moved(frames_in(before[1]), frames_in(now[1]), step)
        told["blocks"] = self.blocks(step, before[3], now[3], calls)
        state = now[0][0].split(" ")
        told["now"] = f"▸ {state[2]}" if state[1] == "running" else None
        return told

    @staticmethod
    def bytes_in(reply):
        values, undefs = (row.split(" ")[1] for row in reply)
        return [(values[i:i + 2], undefs[i:i + 2]) for i in range(0, len(values), 2)]

    def moved(self, before, now, step):
        if len(now) != len(before):
            return f" {'called' if len(now) > len(before) else 'returned to'} in step {step - 1:,}"
        return "" if self.name(now[0]) == self.name(before[0]) else f" jumped to in step {step - 1:,}"

    def blocks(self, step, before, now, calls):
        were, told = {row.split(" ")[1]: row.split(" ") for row in before[:-1]}, []
        for row in now[:-1]:
            _, start, size, how, *trace = row.split(" ")
            was = were.get(start)
            changed = not (was and was[2:4] == [size, how])
            does = ("resized" if changed and was and was[3] == "live" else "allocated") if how == "live" else "freed"
            names = [self.name(int(it, 16)) for it in trace]
            who = next((it for it in names if it not in HEAP_FUNCTIONS), names[0] if names else None)
            state = f"{'live, ' if how == 'live' else ''}{does}{f' in step {step - 1:,}' if changed else ''}{f' by {who}' if who else ''}"
            told.append(f"{int(size):,} byte{'' if size == '1' else 's'} at {start}, {state}")
            expect(not changed or len(calls) > 1, f"step {step - 1} changes blocks and calls no heap: {row}")
        return told


def frames_in(reply):
    return [int(it, 16) for it in reply[0].split(" ")[1:]]


def known(undef):
    return ", inaccessible" if undef == "__" else "" if undef == "00" else f", undefined bits 0x{undef}"


def without_lines(text):
    """A text of the page without its source lines, which the program doesn't say."""
    head, _, rest = text.partition(" (")
    return head + rest[rest.index(")") + 1:] if rest else text


def rests(page, step=None):
    """Waits until all of a step is shown, or of the one that the page is at."""
    at = "" if step is None else f" && replaycheck.step === {step}"
    page.until(f"!replaycheck.isBusy && replaycheck.machine.rested && replaycheck.machine.rested === replaycheck.shown{at}")


# ---- the parts


def same_panes(page, program, steps, run):
    """Whether the page shows at steps of a run what the program's looks say."""
    found = page.run("(async () => {" + SHOWN + f"const all = []; for (const it of {json.dumps(steps)}) all.push(await at(it));"
                     " return all; })()")
    for step, shown in zip(steps, found):
        at = shown.pop("at")
        told = shown.pop("told")
        want = program.expected(step, at)
        shown["calls"], shown["blocks"] = ([without_lines(it) for it in shown[part]] for part in ("calls", "blocks"))
        for part, value in want.items():
            same(f"{part} at step {step} of {run}", shown[part], value)
        live = sum(", live" in it for it in want["blocks"])
        expect(told.startswith(f"{live} live block") if want["blocks"] else told == "no blocks", f"{run}, {step}: {told}")


def panes_in_turn(bench):
    """Calls, registers, memory, letters and blocks at random steps of five programs, edited and not, and what changed since the step
    before: beside the program's looks."""
    chance = random.Random(5)
    for name, edits in PROGRAMS:
        with bench.open(name) as page:
            for lines in ([], edits):
                page.run(f"replaycheck.use({json.dumps(chr(10).join(lines))})")
                bench.settle(page)
                program, last = Program(bench, words_of(name), lines), page.run("replaycheck.opened.last")
                steps = [0, last, *(chance.randrange(last + 2) for _ in range(STEPS // 2 - 2))]
                same_panes(page, program, steps, f"{name} with {lines}")


# ---- who wrote a value


def ask_on_page(page, kind, index, question):
    """Asks about a register, or a byte that is shown, as a user does. Gives the step that the page is at then, and what it says."""
    rows, before = ("registers", index - 1) if kind == "register" else ("memory-rows", index)
    page.run(f"""(() => {{ replaycheck.machine.memory.write(null);  // as Escape does, if there is a field for a byte
      document.querySelectorAll('#{rows} button')[{before}].click();
      document.getElementById('{kind}-{question}').click(); }})()""")
    page.until("!['', 'Searching…'].includes(document.getElementById('asked-told').textContent)")
    rests(page)
    return page.run("replaycheck.step"), page.text("asked-told")


def rows_of_registers(bench, lines, last):
    """The registers of the station at each step up to one."""
    asked = [it for step in range(last + 1) for it in (f"goto {step}", "look registers")]
    return [it[1:] for it in looks(bench, STATION, [*lines, *asked])[len(lines) + 1::2]]


# Lines that edit the station at steps, and rows of what is asked at which step, of which the edit of a step is the answer.
EDITS = ["write 300 0x7fffffc7 1 0x41", "set 400 x10 5 0xff", "mark 200 0x7fffffc0 4 defined", "mark 210 0x7fffffc0 4 defined"]
BY_EDITS = (("wrote", "byte", 0x7FFFFFC7, 320, 300), ("since", "byte", 0x7FFFFFC0, 250, 200), ("wrote", "register", 10, 400, 400),
            ("since", "register", 10, 400, 400))


def written_by(bench, given, rows, asked):
    """The step that is the answer to a question by the looks of a run without edits of what is asked; null if there is none."""
    what, kind, place, step = asked
    if kind == "byte":
        reply = looks(bench, STATION, [*given, f"goto {step}", f"look last {'write' if what == 'wrote' else 'shadow'} {place} 1 0"])[-1][0]
        return int(reply.split(" ")[1]) if reply != "none" else None
    own = [it[place - 1].split(" ")[2 if what == "since" else 0:] for it in rows]
    return next((at for at in range(step - 1, -1, -1) if own[at] != own[at + 1]), None)


def asked_rightly(page, asked, want):
    """Asks on the page, and whether it leads to a step, says so, and has a button back."""
    what, kind, place, step = asked
    page.run(f"replaycheck.go({step}), replaycheck.machine.chosen = 0x7fffff80")
    rests(page, step)
    got, told = ask_on_page(page, kind, place - 0x7FFFFF80 if kind == "byte" else place, what)
    same(f"{asked}: {told}", got, step if want is None else want)
    expect(("since the run began" in told) == (want is None) and (want is None or f"{want:,}" in told), told)
    same("the button back", page.run("document.getElementById('asked-back').hidden"), got == step)
    if got != step:
        page.click_on("#asked-back")
        rests(page, step)
    return told


def questions(bench):
    """Who wrote a byte or changed a register, and since when it is undefined: the step is that of the program's looks, also where an edit
    of a step did it, and a button leads back."""
    chance, rows = random.Random(7), rows_of_registers(bench, [], 882)
    with bench.open() as page:
        for turn in range(40):
            what, kind, step = ("wrote", "since")[turn // 2 % 2], ("register", "byte")[turn % 2], chance.randrange(1, 882)
            place = chance.randrange(1, 32) if kind == "register" else 0x7FFFFF80 + chance.randrange(64, SEEN)
            asked = (what, kind, place, step)
            if kind == "byte" or what == "wrote" or int(rows[step][place - 1].split(" ")[2], 16):
                asked_rightly(page, asked, written_by(bench, [], rows, asked))
        page.run(f"replaycheck.use({json.dumps(chr(10).join(EDITS))})")
        bench.settle(page)
        for *asked, want in BY_EDITS:
            expect("he edit just before step" in (told := asked_rightly(page, asked, want)), told)


def manual_questions(bench):
    """The questions of the manual's chapter: the byte that step 657 wrote, and since when it was undefined without it."""
    with bench.open() as page:
        for lines, question, step, told in (
                ("goto 684", "wrote", 657, "Step 657 was the last to write the byte at 0x7fffffc7."),
                ("goto 684\ninput 37 5", "wrote", 684, "Nothing has written the byte at 0x7fffffc7 since"),
                ("goto 684\ninput 37 5", "since", 39, "The byte at 0x7fffffc7 has been undefined since step 39.")):
            page.run(f"replaycheck.use({json.dumps(lines)})")
            bench.settle(page)
            rests(page, 684)
            page.set("memory-at", "0x7fffffc0")
            page.click_on("#memory-form button")
            page.until("replaycheck.machine.at === 0x7fffffc0")
            rests(page, 684)
            got, said = ask_on_page(page, "byte", 7, question)
            same(f"{question} with {lines!r}", got, step)
            expect(said.startswith(told), said)
            expect("0x7fffffc7" in page.text("byte-name"), "the byte isn't in view any more")


def searched_further(bench):
    """A register that hasn't changed for long: the page says up to where it looked, and goes on from there."""
    program = elf([*assemble("li s0, 7; li s1, 20000; again: addi s1, s1, -1; bne s1, zero, again"), *assemble("li a7, 93; ecall")])
    with bench.page() as page:
        bench.give(page, {"program": program})
        bench.settle(page)
        page.run("replaycheck.go(6000)")
        rests(page, 6000)
        step, told = ask_on_page(page, "register", 8, "wrote")
        same("what is said", (step, told), (6000, "No step from 1,904 to 5,999 changed s0."))
        page.click_on("#asked-further")
        page.until("replaycheck.step === 0")
        same("what is said then", page.text("asked-told"), "Step 0 was the last to change s0.")


# ---- keys, names, many blocks


def state_by_keys(bench):
    """Frames, registers, bytes and questions by keys only."""
    with bench.open() as page:
        page.run("replaycheck.go(600)")
        rests(page, 600)

        def held():
            return page.run("document.activeElement.id || document.activeElement.title || document.activeElement.textContent")
        bench.tab(page, "calls")
        page.run("document.querySelector('#calls button').focus()")
        page.press("End", modifiers=2)
        expect("_start" in held(), f"the last frame is {held()}")
        page.press("Enter")
        page.until("replaycheck.code.shown.name === '_start'")
        same("after a frame", held(), "code-tab")
        page.press("End", "Home", "ArrowLeft", "ArrowLeft", "ArrowLeft", "ArrowLeft")
        same("the tab of the registers", held(), "registers-tab")
        page.run("document.querySelector('#registers button[tabindex=\"0\"]').focus()")
        page.press("Home", "ArrowDown", "Enter")
        same("after a register", (held(), page.text("register-name")), ("register-value", "sp"))
        bench.tab(page, "memory")
        page.run("document.querySelector('#memory-rows button[tabindex=\"0\"]').focus()")
        page.press("ArrowDown", "End", "ArrowLeft", "Enter")
        same("after a byte", held(), "new-byte")
        address = page.run("replaycheck.machine.at + 30")
        page.press("Escape")
        expect(held().startswith(f"byte at 0x{address:08x}"), f"Escape leads to {held()}")
        page.press("Enter", "Tab")
        same("after the bytes", held(), "byte-wrote")
        page.press("Enter")
        page.until("!document.getElementById('asked-back').hidden")
        page.press("Tab")
        same("what comes after a question", held(), "byte-since")
        page.run("document.getElementById('asked-back').focus()")
        page.press("Enter")
        rests(page, 600)


def blocks_by_keys(bench):
    """Blocks by keys only, and a byte of one that is typed over."""
    with bench.open() as page:
        page.run("replaycheck.go(600)")
        rests(page, 600)
        bench.tab(page, "blocks")
        page.focus("blocks")
        for key, want in (("End", 2), ("ArrowLeft", 1), ("Home", 0), ("ArrowRight", 1)):
            page.press(key)
            same(f"the block after {key}", page.run("replaycheck.machine.blocks.picked"), want)
        expect("8 bytes at 0x40000040, live, allocated by " in page.text("block-told"), page.text("block-told"))
        page.press("Enter")
        page.until("replaycheck.machine.at === 0x40000040")
        rests(page)
        page.run("document.querySelector('#memory-rows button').focus()")
        page.press("Enter")
        page.set("new-byte", "0x41")
        page.press("Enter")
        bench.same_report(page, STATION, "a byte of a block")
        same("lines", page.run("replaycheck.scenario.lines"), ["write 600 0x40000040 1 0x41"])
        page.click_on("#memory-stack")
        page.until("replaycheck.machine.seen.registers[2].value - replaycheck.machine.at < 16 && replaycheck.machine.at > 0x70000000")


def state_by_touch(bench):
    """A finger picks a block, whose memory a button shows. On a narrow page a row has eight bytes, and sixteen once it is wide."""
    with bench.open(width=360, height=800) as page:
        page.call("Emulation.setTouchEmulationEnabled", enabled=True)
        page.run("replaycheck.go(600)")
        rests(page, 600)
        bench.tab(page, "memory")
        page.until("document.querySelector('#memory-rows tr').querySelectorAll('button').length === 8", 5)
        at = page.run("replaycheck.machine.at")
        bench.tab(page, "blocks")
        page.run("new Promise((done) => { requestAnimationFrame(() => requestAnimationFrame(done)); })")
        page.run("document.getElementById('blocks').scrollIntoView({ block: 'center' })")
        x, y = page.run("""(() => { const { machine: { blocks } } = replaycheck, [part] = blocks.places.partsOf(2);
          const { left, top } = blocks.canvas.getBoundingClientRect(); return [left + part.x + part.wide / 2, top + 10]; })()""")
        touch(page, "touchStart", (x, y))
        touch(page, "touchEnd")
        page.until("replaycheck.machine.blocks.picked === 2", 5)
        same("what is said", page.text("block-told")[:22], "8 bytes at 0x40000070,")
        same("memory after a finger", page.run("replaycheck.machine.at"), at)
        page.click_on("#block-show")
        page.until("replaycheck.machine.at === 0x40000070")
        page.click_on("#memory-rows button", 1)
        page.shape(1280, 900)
        page.until("document.querySelector('#memory-rows tr').querySelectorAll('button').length === 16")
        same("bytes then", page.run("document.querySelectorAll('#memory-rows button').length"), SEEN)


def markup_in_the_state(bench):
    """Names of functions with markup are text in calls and blocks."""
    name = "<img/src=x/onerror=globalThis.hacked=1>"
    program = elf(assemble("li a0, 9; li a7, 2001; ecall; jal ra, .+8; 4 * nop"), 0x1000,
                  [(name, ENTRY, 20), (f"{name}<b>", ENTRY + 20, 12)])
    with bench.page() as page:
        bench.give(page, {"program": program})
        bench.settle(page)
        steps = page.run("replaycheck.opened.last")
        stacks = looks(bench, [written(bench, program)], [it for step in range(steps) for it in (f"goto {step}", "look stack")])[1::2]
        step = next(step for step, it in enumerate(stacks) if len(frames_in(it)) > 1)
        page.run(f"replaycheck.go({step})")
        rests(page, step)
        for part in ("calls", "block-told"):
            expect(name in page.text(part), f"{part}: {page.text(part)}")
        expect(f"{name}<b>" in page.text("calls"), page.text("calls"))
        same("elements of the markup", page.run("document.querySelectorAll('#main :is(img, i, b, script)').length"), 0)
        same("what the names did", page.run("globalThis.hacked ?? null"), None)


def written(bench, program):
    """The path of a program's file, which the browser's folder keeps."""
    with tempfile.NamedTemporaryFile(dir=bench.browser.folder, delete=False) as file:
        file.write(program)
    return file.name


def many_blocks(bench):
    """Thousands of blocks: all are counted, the map has each in order, the list those around the one that is picked, and they are soon
    there; of more than the page reads it says so."""
    hoard = elf(assemble("lui s1, 2; addi s1, s1, 808; again: li a0, 1; li a7, 2001; ecall; addi s1, s1, -1; bne s1, zero, again;"
                         "li a0, 0; li a7, 93; ecall"), 0x4000)
    with bench.page() as page:
        bench.give(page, {"program": hoard})
        bench.settle(page)
        for count, told in ((5000, "5,000 live blocks with 5,000 bytes, 0 freed"),
                            (9000, "the first 8,192: 8,192 live blocks with 8,192 bytes, 0 freed")):
            step = 2 + 5 * count
            began = page.run(f"(replaycheck.go({step}), performance.now())")
            rests(page, step)
            took = page.run("performance.now()") - began
            same("what is told", page.text("blocks-told"), told)
            starts = [int(row.split(" ")[1], 16) for row in all_blocks(bench, [written(bench, hoard)], [f"goto {step}"])]
            same("blocks", page.run("replaycheck.machine.blocks.blocks.map((it) => it.start)"), starts[:8192])
            expect(took < 5000, f"{count} blocks took {took:.0f} ms")
        times = page.run("""(() => { const { blocks } = replaycheck.machine, times = [];
          for (let i = 0; i < 20; i++) { const begun = performance.now(); blocks.paint(); times.push(performance.now() - begun); }
          return times.sort((a, b) => a - b)[10]; })()""")
        expect(times < 100, f"to draw the map takes {times} ms")
        bench.tab(page, "blocks")
        page.run("document.getElementById('block-list').open = true")
        page.focus("blocks")
        page.press("End")
        page.until("document.getElementById('block-listed').textContent.startsWith('100 blocks of 8,192')")
        page.press("Enter")
        page.until(f"replaycheck.machine.at === {starts[8191]}")
        bench.tab(page, "blocks")
        page.run("(document.getElementById('blocks-frame').scrollTop = 0, document.getElementById('blocks').scrollIntoView())")
        box = page.run("(({ left, top }) => [left, top])(document.getElementById('blocks').getBoundingClientRect())")
        page.click(box[0] + 1, box[1] + 10)
        page.until(f"replaycheck.machine.at === {starts[0]}")


def map_of_blocks(bench):
    """Each block of a map has a place of its own, in order, and is found there; arrow keys lead to each."""
    with bench.page() as page:
        wrong = page.run("""(async () => {
          const { BlockMap } = await import('./panels/blockmap.js'), wrong = [];
          for (const [count, wide] of [[1, 300], [3, 600], [500, 320], [3000, 900]]) {
            let start = 0x40000010;
            const blocks = Array.from({ length: count }, (_, i) => {
              const size = i * 7919 % 97 * (i % 50 ? 1 : 100), it = { start, size };
              start += size + 16 + i % 3 * 40;
              return it; });
            const map = new BlockMap(blocks, wide);
            for (let i = 0; i < count; i++) {
              const [part] = map.partsOf(i);
              if (map.at(part.x + part.wide / 2, part.row) !== i) wrong.push([count, wide, i]);
              if (i && map.begins[i] < map.ends[i - 1]) wrong.push([count, wide, i, 'over another']);
              if (i && map.next(i - 1, 'ArrowRight') !== i) wrong.push([count, wide, i, 'not beside']);
              const parts = [...map.partsOf(i)].reduce((sum, it) => sum + it.wide, 0);
              if (Math.abs(parts - map.ends[i] + map.begins[i]) > 1e-6) wrong.push([count, wide, i, 'parts']);
            }
            for (const key of ['ArrowDown', 'ArrowUp']) for (let i = 0; i < count; i += 7) {
              const to = map.next(i, key); if (to < 0 || to >= count) wrong.push([count, wide, i, key]); }
          }
          return wrong; })()""")
        same("places", wrong[:5], [])


# ---- the step that is dragged


def dragged(bench):
    """While the step is dragged through a run of 100,000 steps, calls, registers and code follow, late answers are dropped, and at the end
    the last step is shown."""
    loop = """li s1, 20000; again: jal ra, work; addi s1, s1, -1; bne s1, zero, again; li a7, 93; ecall
              work: addi a0, a0, 1; jalr zero, 0(ra)"""
    words = assemble(loop)
    work = ENTRY + 4 * (len(words) - 2)
    program = elf(words, 0x1000, [("main", ENTRY, work - ENTRY), ("work", work, 8)])
    with bench.page() as page:
        bench.give(page, {"program": program})
        bench.settle(page)
        found = page.run("""(async () => {
          const { last } = replaycheck.opened, seen = new Set(), begun = performance.now();
          let chosen = 0;
          while (performance.now() - begun < 1500) {
            for (let i = 0; i < 3; i++) replaycheck.steps.choose(Math.floor(last * (chosen++ % 389) / 389) + chosen % 5);
            await new Promise(requestAnimationFrame);
            if (replaycheck.machine.step === replaycheck.shown.step) seen.add(replaycheck.machine.shown);
          }
          replaycheck.steps.choose(50001);
          return { last, chosen, shown: seen.size, rate: seen.size / (performance.now() - begun) * 1000 }; })()""")
        expect(found["last"] > 99000, f"the run has {found['last']} steps")
        expect(found["shown"] < found["chosen"], f"{found['shown']} of {found['chosen']} steps are shown: none is dropped")
        expect(found["rate"] > 8, f"{found['rate']:.0f} steps a second are shown")
        rests(page, 50001)
        wanted = looks(bench, [written(bench, program)], ["goto 50001", "look registers", "look stack"])
        pc = wanted[1][0].split(" ")[2]
        same("the stack", page.run("replaycheck.machine.stack.frames"), frames_in(wanted[2]))
        same("the code", page.run("document.querySelector('#code-rows .now td:nth-child(2)').textContent"), f"▸ {pc}")
        expect(page.run("replaycheck.code.shown.name") in ("main", "work"), "the code doesn't follow")
        page.run("document.getElementById('code-follows').click()")
        page.run("replaycheck.code.visit(0x10000, false)")
        inside = next(
            it for it in range(8) if frames_in(looks(bench, [written(bench, program)], [f"goto {it}", "look stack"])[-1])[0] == work)
        page.run(f"replaycheck.go({inside})")
        rests(page, inside)
        same("code that doesn't follow", page.run("replaycheck.code.shown.name"), "main")


def state_in_firefox(bench):
    """The state in Firefox: calls, what changed, and since when a byte is undefined."""
    with firefox.Firefox(firefox.find()) as page:
        page.open(f"{bench.address}?still#example=station&lines=goto+684%0Ainput+37+5")
        page.until("replaycheck.step === 684")
        rests(page, 684)
        want = Program(bench, STATION, ["input 37 5"]).expected(684, page.run("replaycheck.machine.at"))
        found = page.run("""({ registers: [...document.querySelectorAll('#registers button')].map((it) => it.title),
          memory: [...document.querySelectorAll('#memory-rows button')].map((it) => it.title),
          calls: [...document.querySelectorAll('#calls li')].map((it) => it.textContent) })""")
        found["calls"] = [without_lines(it) for it in found["calls"]]
        same("the state", found, {part: want[part] for part in found})
        page.run("replaycheck.machine.choose(0x7fffffc0)")
        rests(page, 684)
        same("since when a byte is undefined", ask_on_page(page, "byte", 7, "since")[0], 39)
