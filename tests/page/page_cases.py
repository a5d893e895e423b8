"""The cases of test-page about the program in the page and its edits: what one does, against what the program says."""
import json
import random
import subprocess
import tempfile

from page_bench import EXAMPLES, SWEPT, expect, same, words_of
import page_modules
from guest_files import DATA, Worked
from checkout import TOP

STATION = words_of("station")
SUPPRESSED = "Cond fun:show fun:main fun:_start"


# ---- the program in the page


def worked_sessions(bench):
    """Each worked session, byte for byte, by the page's worker: its lines one by one."""
    with bench.page() as page:
        for path in sorted(DATA.glob("*.session")):
            worked = Worked(path.stem)
            want = worked.replies or native_replies(bench, worked)
            same(path.stem, asked(page, worked, [[line] for line in worked.lines]), want)


def native_replies(bench, worked):
    """The program's own replies, where a session has none written."""
    with tempfile.TemporaryDirectory() as folder:
        for name in ("program", "input", "supp"):
            with open(f"{folder}/{name}", "wb") as file:
                file.write(getattr(worked, name))
        return bench.native([f"{folder}/program", "--input", f"{folder}/input", "--supp", f"{folder}/supp"], worked.lines)


def asked(page, worked, groups, again=False):
    """What the page's worker is answered to groups of lines."""
    files = {name: list(getattr(worked, name)) for name in ("program", "input", "supp")}
    return page.run("""(async ({ files, groups, again }) => {
      const { Helper } = await import('./engine/sessions.js'), { loadModule, makeWorker } = await import('./engine/resources.js');
      for (const name in files) files[name] = Uint8Array.from(files[name]);
      const helper = new Helper(makeWorker), replies = [];
      await helper.ask('begin', { module: await loadModule(), files, limit: 2 ** 30, again });
      for (const lines of groups) replies.push(...(await helper.ask('ask', { lines })).replies);
      helper.stop();
      return replies.map((it) => it.trimEnd());
    })(""" + json.dumps({"files": files, "groups": groups, "again": again}) + ")")


def without_waiting(bench):
    """Some worked sessions where the browser can't let the program wait: each question is a new run."""
    with bench.page() as page:
        for name in ("input-byte", "suppressions", "refused-lines", "patched-words"):
            worked = Worked(name)
            want = [reply for line, reply in zip(worked.lines, native_replies(bench, worked)) if line != "worked"]
            same(name, asked(page, worked, [[line] for line in worked.lines if line != "worked"], again=True), want)


def each_order(bench):
    """Each edit after each, of the worked sessions that have some (--all)."""
    with bench.page() as page:
        for path in sorted(DATA.glob("*.session")):
            worked = Worked(path.stem)
            before = worked.lines[:len(worked.lines) - 2 * len(worked.edits)]
            for first in worked.edits:
                for second in worked.edits:
                    worked.lines = [*before, "report", first, "report", second, "report"]
                    same(f"{path.stem}: {first} and then {second}", asked(page, worked, [worked.lines]), native_replies(bench, worked))


PATCHES = """import { Scenario, linesBetween } from './engine/scenario.js';
const SIZE = 12, base = new Uint8Array();
let seed = 1;
const random = (below) => { seed = (Math.imul(seed, 1103515245) + 12345) >>> 0; return (seed >>> 8) % below; };
const file = Array.from({ length: SIZE }, () => random(256));
const number = (bytes, at, length) => bytes.slice(at, at + length).reduceRight((sum, it) => sum * 256 + it, 0);
const loaded = (at, length = 4) => (at + length <= SIZE ? number(file, at, length) : null);
function after(bytes, line) {
  const [word, at, value] = line.split(' '), copy = [...bytes], length = word === 'patch' ? 4 : 2;
  for (let i = 0; i < length; i++) copy[Number(at) + i] = Math.floor(Number(value) / 256 ** i) % 256;
  return copy;
}
function patched(unit) {
  let scenario = new Scenario(base), bytes = file;
  for (let left = random(6); left > 0; left--) {
    const isHalf = unit === 2 && random(2), at = unit * random((SIZE - (isHalf ? 2 : 4)) / unit + 1);
    const line = isHalf ? `patch16 ${at} ${random(65536)}` : `patch ${at} ${random(65536) * 65536 + random(65536)}`;
    [scenario, bytes] = [scenario.after(line), after(bytes, line)];
  }
  return { scenario, bytes };
}
const faults = [];
for (let turn = 0; turn < 2000; turn++) {
  const unit = turn % 2 ? 2 : 4, [one, other] = [patched(unit), patched(unit)];
  const lines = linesBetween(one.scenario, other.scenario, loaded);
  const led = lines?.reduce(after, one.bytes), made = other.scenario.lines.reduce(after, file);
  const seen = Array.from({ length: SIZE / 2 }, (_, i) => other.scenario.valueAt(2 * i, 2, loaded));
  const isThere = seen.every((it, i) => it === number(other.bytes, 2 * i, 2));
  const isWell = isThere && [led, made].every((it) => it?.join() === other.bytes.join());
  if (!isWell || (unit === 4 && lines.some((it) => it.startsWith('patch16')))) faults.push([turn, lines]);
}
console.log(JSON.stringify(faults));
"""


def patches_in_node():
    """Patches of words and halves over one another: what is at each place, and the lines from one scenario to another."""
    same("patches", page_modules.answered(PATCHES)[:3], [])


# ---- edits


def edits_in_turn(bench):
    """Each kind of edit, made as a user makes it, with the program's report after each."""
    with bench.open() as page:
        def check(what):
            bench.same_report(page, STATION, what)
        check("unedited")
        page.focus("bytes")
        page.press("ArrowRight", "0", "8")
        check("a typed byte")
        same("its lines", page.run("replaycheck.scenario.lines"), ["input 1 8"])
        expect("new" in page.text("report"), "the error isn't told as new")
        expect("station.c:34" in page.text("report"), "the source line is missing")
        expect("unedited: exited with 0 · no errors" in page.text("before"), "the unedited run isn't told")
        page.press("ArrowDown", "+", "+", "-")
        check("a byte that is counted up")
        page.set("value", 200, "input", "change")
        check("the slider of values")
        page.set("append-value", "0x41")
        page.click_on("#append-form button")
        check("a byte more")
        for _ in range(3):
            page.click_on("#cut")
        check("bytes cut off")
        page.run("replaycheck.code.visit(0x101e0)")
        page.click_on("#code-rows .at button")
        check("an instruction left out")
        page.click_on("#code-rows .at button", 1)
        page.set("new-word", "0x00460513")
        page.focus("new-word")
        page.press("Enter")
        check("another word")
        expect("patch 0x000101e0 0x00460513" in page.run("replaycheck.scenario.lines"), "the patch isn't among the lines")


def sets_in_turn(bench):
    """The instruction set: chosen, undone, in a link, and in the lines of a text. Edits that fit stay."""
    words, short, atomic = words_of("boot"), [*words_of("boot"), "--isa=rv32imc"], [*words_of("boot"), "--isa=rv32imac"]
    with bench.open("boot") as page:
        def check(isa, given, *lines):
            page.until(f"replaycheck.opened?.isa === '{isa}'")
            bench.same_report(page, given, f"a run for {isa}")
            same(f"lines for {isa}", page.run("replaycheck.scenario.lines"), list(lines))
            same("the set that is shown", page.run("document.getElementById('isa').value"), isa)
        page.run("replaycheck.use('patch 0x10230 0x13\\ninput 1 5')")
        kept = ("patch 0x00010230 0x00000013", "input 1 5")
        check("rv32im", words, *kept)
        page.set("isa", "rv32imc", "change")
        check("rv32imc", short, *kept)
        expect(page.run("document.getElementById('lines').value").startswith("# --isa rv32imc\n"), "the lines don't say the set")
        page.until("location.hash.includes('isa=rv32imc')")
        link = page.run("location.hash")
        page.click_on("#undo")
        check("rv32im", words, *kept)
        page.run("replaycheck.use('# --isa rv32imc\\ninput 1 6')")
        check("rv32imc", short, "input 1 6")
        page.run("replaycheck.use('# --isa rv32imac\\npatch 0x10230 0x00b6252f')")
        check("rv32imac", atomic, "patch 0x00010230 0x00b6252f")
        page.run("replaycheck.code.visit(0x10230)")
        expect("amoadd.w a0,a1,(a2)" in page.text("code-rows"), "the page doesn't show an atomic instruction")
        page.run("replaycheck.use('# --isa rv32imc\\npatch 0x10230 0xb0002573')")
        check("rv32imc", short, "patch 0x00010230 0xb0002573")
        page.run("replaycheck.code.visit(0x10230)")
        expect("csrr a0,mcycle" in page.text("code-rows"), "the page doesn't show a read of a counter")
        page.run("replaycheck.use('# --isa rv32gc')")
        same("a set that there isn't", page.text("notice"),
             "There is no instruction set “rv32gc” here, but rv32im, rv32imc and rv32imac.")
    with bench.page(f"?still{link}") as page:
        bench.settle(page)
        same("a link", page.run("[replaycheck.opened.isa, ...replaycheck.scenario.lines]"), ["rv32imc", *kept])


def halves_in_turn(bench):
    """Instructions of 16 bits, edited as a user does it, with the program's report after each; and their sweep, beside the program's."""
    name = "boot for rv32imc"
    words = words_of(name)
    with bench.open(name) as page:
        page.run("replaycheck.code.visit(0x1018e)")
        same("lengths", page.run("replaycheck.code.range.starts.length"), 13)
        skips = ["patch16 0x0001018e 0x0001", "patch 0x0001019e 0x00000013"]
        for at, lines in ((0x1018E, skips[:1]), (0x1019E, skips)):
            page.run(f"replaycheck.code.visit({at})")
            page.click_on("#code-rows .at button")
            bench.same_report(page, words, "an instruction left out")
            same("its lines", page.run("replaycheck.scenario.lines"), lines)
        for at, text, line in ((0x1018E, "0x4505", "patch16 0x0001018e 0x4505"), (0x10192, "0x00150513", "patch 0x00010192 0x00150513"),
                               (0x1019E, "0x4501", "patch16 0x0001019e 0x4501")):
            page.run(f"replaycheck.code.visit({at})")
            page.click_on("#code-rows .at button", 1)
            page.set("new-word", text)
            page.focus("new-word")
            page.press("Enter")
            bench.same_report(page, words, f"{text} at {at:#x}")
            expect(line in page.run("replaycheck.scenario.lines"), f"{line} isn't among the lines")
        page.click_on("#none")
        page.run("replaycheck.code.visit(0x1018e)")
        page.set("sweep-what", "words", "change")
        for values in ("skip", "flips"):
            page.set("sweep-values", values)
            page.click_on("#sweep")
            page.until(f"{SWEPT} && replaycheck.sweeps.of.asked.values === '{values}'", 120)
            table = bench.table(words, "--words=0x1018e..0x101a8", f"--words-values={values}", f"--step={page.run('replaycheck.step')}")
            found = page.run("""[...replaycheck.sweeps.sweep.swept.places].flatMap(([at, it]) => it.values.map((value, i) =>
              [at, value, replaycheck.sweeps.sweep.swept.outcomes[it.outcomes[i]]]))""")
            same(f"the sweep of {values}", {(at, value): text for at, value, text in found}, table)


def forms_in_turn(bench):
    """Marks, options, suppressions and steps, each by its form."""
    with bench.open() as page:
        def check(what):
            bench.same_report(page, STATION, what)
        page.run("replaycheck.use('input 37 5')")
        check("lines that are used")
        page.run("[...document.querySelectorAll('#report button')].find((it) => it.textContent === 'Suppress').click()")
        check("a suppression of one click")
        same("errors then", page.run("replaycheck.shown.report.errors"), 0)
        for name, value in (("step", 55), ("at", "0x20011"), ("length", 2), ("kind", "undefined")):
            page.set(f"mark-{name}", value)
        page.click_on("#mark-form button")
        check("a mark")
        for name, value in (("redzone", 64), ("callers", 2), ("queue", 0)):
            page.set(f"option-{name}", value)
        page.run("document.querySelector('#option-form [value=reachable]').checked = true")
        page.click_on("#option-form button")
        check("options")
        same("lines", sorted(page.run("replaycheck.scenario.lines")),
             ["input 37 5", "mark 55 0x00020011 2 undefined", "option callers 2", "option queue 0", "option redzone 64",
              "option show definite,possible,reachable", f"supp add {SUPPRESSED}"])
        for step in (0, 55, 500):
            page.set("step", step, "input")
            check(f"step {step}")
        while page.run("document.querySelector('#chips button') !== null"):
            page.click_on("#chips button")
            check("an edit taken off")
        same("lines at the end", page.run("replaycheck.scenario.lines"), [])


def machine_in_turn(bench):
    """Registers, bytes and the instruction of a step, seen and changed as a user does it, with the program's report after each."""
    with bench.open() as page:
        def check(what, *lines):
            bench.same_report(page, STATION, what)
            same(f"lines after {what}", page.run("replaycheck.scenario.lines"), list(lines))
            page.until("replaycheck.machine.step === replaycheck.step && replaycheck.machine.shown === replaycheck.shown")
            same(f"registers after {what}", page.run("replaycheck.machine.seen.registers.slice(1)"), registers(bench, lines, 684))
        page.set("step", 684, "input")
        check("a step")
        same("where it is", page.text("machine-told") + page.text("pc"), "before step 684: running at0x000106ac")
        page.click_on("#registers li:nth-child(11) button")
        page.set("register-value", "0x5")
        page.click_on("#register-form > button")
        check("a register that is set", "set 684 x11 0x00000005")
        page.set("register-undef", "0xff")
        page.click_on("#register-form > button")
        bits = ["set 684 x11 0x00000005", "set 684 x11 0x00000005 0x000000ff"]
        check("undefined bits", *bits)
        page.click_on("#bits button", 29)
        check("a bit that is turned", *bits, flip := "flip 684 x11 0x00000004")
        page.set("memory-at", "0x20000")
        page.click_on("#memory-form button")
        page.until("replaycheck.machine.bytes[0]?.value === 1")
        bench.tab(page, "memory")
        page.click_on("#memory-rows button", 2)
        page.set("new-byte", "0x41")
        page.focus("new-byte")
        page.press("Enter")
        check("a byte", *bits, flip, write := "write 684 0x00020002 1 0x41")
        same("the byte", page.run("replaycheck.machine.bytes[2]"), {"value": 0x41, "undef": 0})
        page.click_on("#pc")
        page.click_on("#code-rows .now button", 2)
        check("an instruction that is left out", *bits, flip, write, "skip 684")
        for label in ("step 684: a1 = 0x00000005, undefined 0x000000ff", "step 684: bits 0x00000004 of a1 turned",
                      "step 684: 1 byte at 0x00020002 = 0x41", "step 684: an instruction left out"):
            expect(label in page.text("chips"), f"no edit is called {label!r}")
        page.set("register-value", "five")
        page.click_on("#register-form > button")
        expect("not “five”" in page.text("notice"), "what is no number isn't told")
        while page.run("document.querySelector('#chips button') !== null"):
            page.click_on("#chips button")
        check("all taken off")
        page.set("step", page.run("replaycheck.steps.last"), "input")
        page.until("replaycheck.machine.seen?.runs === false")
        expect("exited 0, so nothing changes any more" in page.text("machine-told"), "the end isn't told")
        page.click_on("#memory-rows button", 2)
        same("what can be changed then", page.run("[...document.querySelectorAll('#machine :enabled:is(#bits *, #memory-rows input, "
                                                  "#register-value)')].length"), 0)


def registers(bench, lines, step):
    """What the program tells of the registers at a step."""
    text = "".join(f"{line}\n" for line in (*lines, f"goto {step}", "look registers"))
    told = subprocess.run([bench.program, "look", *STATION], input=text, capture_output=True, text=True, check=True).stdout
    rows = [row.split(" ")[1:] for row in told.splitlines()[-31:]]
    return [{"value": int(value, 16), "undef": int(undef, 16)} for value, undef in rows]


def runs_that_go_on(bench):
    """A run that doesn't end where the unedited one does isn't shown as a good one, and the slider ends where the run ends."""
    with bench.open() as page:
        last = page.run("replaycheck.opened.last")
        for lines, how, told in (("patch 0x000101e8 0x000000ef", "open", "of {follow} steps, still running"),
                                 ("input 0 0", "good", "of {end} steps, the end"), ("", "good", "of {last} steps, the end")):
            page.run(f"replaycheck.use({json.dumps(lines)})")
            bench.same_report(page, STATION, lines)
            page.until("replaycheck.marked === replaycheck.scenario && replaycheck.steps.landmarks.length", 20)
            follow, end = page.run("[replaycheck.opened.follow, replaycheck.steps.last]")
            same(f"the verdict of {lines!r}", page.run("document.getElementById('verdict').className"), how)
            same(f"the end of {lines!r}", page.text("step-told"), told.format(last=f"{last:,}", follow=f"{follow:,}", end=f"{end:,}"))
            states = bench.native(STATION, [*filter(None, [lines]), f"goto {end - 1}", "report", f"goto {end}", "report"])
            ends = ["running" in it.split("\n")[1] for it in states if "\n" in it]
            same(f"where {lines!r} ends", ends, [True, how == "open"])
            same("the slider", page.run("Number(document.getElementById('step').max)"), end)


def undone_and_redone(bench):
    """Undo takes back edit by edit, and redo makes them again."""
    lines = ("input 1 8", "patch 0x101e0 0x13", "input append 7", "mark 55 0x20011 2 undefined", "option redzone 64", "input cut",
             "input cut")
    with bench.open() as page:
        seen = [[]]
        for line in lines:
            page.run(f"replaycheck.edit(replaycheck.scenario.after({json.dumps(line)}))")
            bench.same_report(page, STATION, line)
            seen.append(page.run("replaycheck.scenario.lines"))
        for want in seen[-2::-1]:
            page.click_on("#undo")
            bench.same_report(page, STATION, "undone")
            same("undone", page.run("replaycheck.scenario.lines"), want)
        expect(page.run("document.getElementById('undo').disabled"), "there is more to undo")
        for want in seen[1:]:
            page.press("y", modifiers=2)
            bench.same_report(page, STATION, "redone")
            same("redone", page.run("replaycheck.scenario.lines"), want)
        for _ in range(4):
            page.press("z", modifiers=2)
        page.run("replaycheck.edit(replaycheck.scenario.after('input 5 9'))")
        bench.settle(page)
        expect(page.run("document.getElementById('redo').disabled"), "what was undone can be made again after another edit")
        page.press("z", modifiers=2)
        bench.same_report(page, STATION, "undone once more")
        same("undone once more", page.run("replaycheck.scenario.lines"), seen[3])


def undone_as_one(bench):
    """The digits of a byte are undone as one, and so are the values of a slider that is dragged, and of no two that aren't."""
    with bench.open() as page:
        def undo(want):
            page.press("z", modifiers=2)
            bench.settle(page)
            same("undone", page.run("replaycheck.scenario.lines"), want)
        page.focus("bytes")
        page.press("ArrowRight", "4", "1", "5", "2")
        page.press("ArrowLeft", "+", "+")
        bench.settle(page)
        same("typed and counted", page.run("replaycheck.scenario.lines"), ["input 1 65", "input 2 84"])
        undo(["input 1 65", "input 2 82"])
        undo(["input 1 65"])
        for value in (9, 10, 11):
            page.set("value", value, "input")
        page.set("value", 12, "input", "change")
        page.set("value", 13, "input", "change")
        bench.settle(page)
        undo(["input 1 65", "input 2 12"])
        undo(["input 1 65"])
        undo([])
        expect(page.run("document.getElementById('undo').disabled"), "there is more to undo")
        page.press("4")
        page.press("z", modifiers=2)
        page.press("5")
        bench.settle(page)
        same("a digit behind one that was undone", page.run("replaycheck.scenario.lines"), ["input 2 88"])


def edits_at_once(bench):
    """Edits that are made before the report of the one before is there: none is lost, and the step stays when all are taken off."""
    with bench.open() as page:
        page.run("replaycheck.go(500)")
        begin = page.run("""(() => { const click = (selector, index = 0) => document.querySelectorAll(selector)[index].click();
          const { begin } = replaycheck.code.range;
          click('#append-form button'); click('#append-form button'); click('#append-form button'); click('#cut');
          click('#code-rows tr:nth-child(1) button'); click('#code-rows tr:nth-child(2) button'); click('#chips button', 1);
          return begin; })()""")
        bench.same_report(page, STATION, "edits at once")
        same("lines", page.run("replaycheck.lines"), ["goto 500", f"patch 0x{begin:08x} 0x00000013", "input append 0", "input append 0"])
        page.click_on("#none")
        bench.same_report(page, STATION, "all taken off")
        same("lines then", page.run("replaycheck.lines"), ["goto 500"])


def marks_taken_off(bench):
    """Marks that are taken off in any order leave the others."""
    marks = ["mark 55 0x20011 2 undefined", "mark 100 0x20010 1 noaccess", "mark 300 0x20014 4 undefined", "mark 0 0x7fffffc7 1 defined"]
    with bench.open() as page:
        for order in ((1, 1, 1, 0), (3, 0, 1, 0), (0, 0, 0, 0)):
            page.run(f"replaycheck.use({json.dumps(chr(10).join(marks))})")
            bench.same_report(page, STATION, "all marks")
            for index in order:
                page.click_on("#chips button", index)
                bench.same_report(page, STATION, f"mark {index} of {order} taken off")


def some_edit(chance):
    """A line that edits the run of the station, or `undo`."""
    kind = chance.choice(["undefined", "noaccess", "defined"])
    return chance.choice([f"input {chance.randrange(40)} {chance.randrange(256)}", f"input append {chance.randrange(256)}", "input cut",
                          f"patch {0x10204 + 4 * chance.randrange(40):#x} 0x13", f"option redzone {chance.randrange(100)}",
                          f"mark {chance.randrange(900)} 0x20010 4 {kind}", "undo"])


def many_edits(bench):
    """Random edits one after another, over sessions that are begun anew after 60 lines."""
    chance = random.Random(3)
    with bench.open(words="?still&lines=60") as page:
        for turn in range(60):
            line = some_edit(chance)
            edit = f"replaycheck.edit(replaycheck.scenario.after({json.dumps(line)}))"
            page.run("replaycheck.travel(-1)" if line == "undo" else edit)
            if turn % 3 == 0:
                bench.same_report(page, STATION, f"turn {turn}: {line}")
        expect(page.run("replaycheck.opened.session.sessions") > 2, "no session was begun anew")


def refused_edits(bench):
    """An edit that the program refuses is told in words, and nothing changes; and so is a line that is none."""
    refused = (("patch 0x40 0x13", "no word of the loaded program"), ("input 999 1", "no such byte"), ("input 0 256", "refused"),
               ("patch 4295033312 0x13", "refused"), ("option redzone 5000", "out of range"),
               ("mark 0 0x20011 0 defined", "a mark has 1 to"),
               ("supp add Nonsense", "can't be read"))
    with bench.open() as page:
        page.run("replaycheck.use('input 1 8')")
        bench.settle(page)
        for line, told in refused:
            page.run(f"replaycheck.edit(replaycheck.scenario.after({json.dumps(line)}))")
            bench.settle(page)
            expect(told in page.text("notice"), f"{line}: {page.text('notice')!r} doesn't say {told!r}")
            same(line, page.run("replaycheck.scenario.lines"), ["input 1 8"])
            bench.same_report(page, STATION, f"after {line}")
        for line in ("input one 8", "append 7", "cut", "toString 5", "option toString 5", "input  1 8", "mark 1 2 3", "unmark 0"):
            page.run("replaycheck.notice('')")
            page.run(f"replaycheck.use({json.dumps(line)})")
            expect("doesn’t edit a run" in page.text("notice"), f"{line} is taken: {page.run('replaycheck.scenario.lines')}")


# ---- links


def link_opened(bench):
    """A link leads another page to the same report, as does the text of the scenario."""
    lines = ["goto 600", "input 1 8", "option callers 2", "supp add Addr1 fun:set_name", "input append 7", "patch 0x101e0 0x13"]
    with bench.open() as page:
        page.run(f"replaycheck.use({json.dumps(chr(10).join(lines))})")
        expect("patch" in page.run("replaycheck.edits.link()"), "the link that is copied at once lacks the last edit")
        bench.same_report(page, STATION, "the scenario")
        page.until("location.hash.includes('patch')")
        address, told, report = page.run("location.href"), page.run("replaycheck.lines"), page.text("report-text")
    with bench.page(address.removeprefix(bench.address)) as page:
        page.until("replaycheck.scenario?.lines.length > 0")
        bench.settle(page)
        same("the lines of the link", page.run("replaycheck.lines"), told)
        same("the report of the link", page.text("report-text"), report)


def link_refused(bench):
    """A link whose lines the program refuses opens its files without them, and says why."""
    with bench.page("?still#example=station&lines=input+999+1") as page:
        page.until("replaycheck.shown")
        bench.settle(page)
        expect("no such byte" in page.text("notice"), f"it says {page.text('notice')!r}")
        same("lines", page.run("replaycheck.scenario.lines"), [])
        bench.same_report(page, STATION, "without the lines")


def link_of_own_files(bench):
    """A link about files that aren't examples asks for them, and says where others are given."""
    program, given = (TOP / "examples" / EXAMPLES["packet"][it] for it in ("program", "input"))
    with bench.page() as page:
        bench.give(page, {"program": program.read_bytes(), "input": given.read_bytes()})
        page.run("replaycheck.use('input 0 9')")
        page.until("location.hash.includes('input+0+9')")
        address = page.run("location.href")
    for content, other in ((given.read_bytes(), False), (b"\x02" * 8, True)):
        with bench.page(address.removeprefix(bench.address)) as page:
            expect("This link is about" in page.text("notice"), "it isn't told what the link is about")
            page.give_files("open-program", program)
            page.until("replaycheck.shown")
            bench.give(page, {"input": content})
            page.until("replaycheck.scenario?.lines.length > 0")
            same("lines", page.run("replaycheck.scenario.lines"), ["input 0 9"])
            same("whether other bytes are told", "other bytes" in page.text("notice"), other)
