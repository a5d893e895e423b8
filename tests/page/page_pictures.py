"""The cases of test-page about every edit at once: the page's sweeps beside the program's table, and their picture."""
import json
import pathlib
import re
import struct
import tempfile

from checkout import TOP
from page_bench import SWEPT, expect, same, words_of
from replaycheck.exploring.steps import edits_of

STATION = words_of("station")


def swept(bench, page, words, options, want_edits):
    """Whether the page's sweep comes to the program's table, edit by edit."""
    page.until(SWEPT, 120)
    told = page.run("""(() => { const { places, outcomes } = replaycheck.sweeps.sweep.swept;
      return [...places].flatMap(([at, it]) => it.values.map((value, index) => [at, value, outcomes[it.outcomes[index]]])); })()""")
    want = bench.table(words, *options)
    same("edits", len(told), want_edits)
    same("outcomes", {(at, value): text for at, value, text in told}, want)


def place_of(page, at, value):
    """Where the picture has an edit of a byte, in pixels of the page: a whole one, as a pointer has it, where a row has one."""
    return page.run(f"""(() => {{ const {{ picture }} = replaycheck.sweeps, it = picture.canvas.getBoundingClientRect();
      const [left, top, wide] = picture.box({at} * picture.rows + {value});
      return [it.left + left + wide / 2, Math.ceil(it.top + top)]; }})()""")


def picture_of_bytes(bench):
    """Every edit of a byte: the program's own table, its counts in the legend, and a click that makes an edit."""
    with bench.open(words="") as page:
        step = page.run("replaycheck.step")
        swept(bench, page, STATION, [f"--step={step}"], 10455)
        page.until("document.getElementById('sweep-told').textContent.includes('287 of them')")
        counts = page.run("[...document.querySelectorAll('#legend-rows .number')].map((it) => it.textContent)")
        same("counts in the legend", counts, ["10", "2", "1", "1", "261", "12", "2,636", "7,532"])
        page.run("document.getElementById('picture').scrollIntoView({ block: 'center' })")
        for at, value in ((1, 8), (37, 250), (15, 255)):
            page.run("replaycheck.use('')")
            bench.settle(page)
            page.click(*place_of(page, at, value))
            bench.same_report(page, STATION, "a click on the picture")
            same("the edit of the click", page.run("replaycheck.scenario.lines"), [f"input {at} {value}"])
        expect(re.search(r"255 other values", page.run("replaycheck.byteTold(1)")), "nothing is told of a byte's values")


def picture_least(bench):
    """In the picture a new error is at least three pixels high, and the legend takes an outcome out."""
    with bench.open(words="") as page:
        page.until(SWEPT, 120)
        page.run("replaycheck.sweeps.picture.draw()")
        count = """(() => {
          const { picture } = replaycheck.sweeps, on = picture.canvas.getContext('2d'), index = 27 * picture.rows + 2;
          const [x, y, wide, tall] = picture.box(index), want = picture.looks[picture.cells[index].number].colour;
          const inked = (at) => '#' + [...on.getImageData(Math.floor(x + wide / 2), at, 1, 1).data].slice(0, 3)
            .map((it) => it.toString(16).padStart(2, '0')).join('') === want;
          let count = 0;
          for (let at = Math.max(0, Math.floor(y) - 4); at < y + tall + 4; at++) count += inked(at);
          return [tall, count]; })()"""
        cell, tall = page.run(count)
        expect(cell < 3 <= tall, f"a cell of {cell} pixels is drawn with {tall}")
        page.click_on("#legend-rows tr:nth-child(3) input")
        expect(page.run(count)[1] == 0, "an outcome that is taken out is drawn")


def picture_of_words(bench):
    """Every bit of a function's words: the program's table."""
    with bench.open("boot") as page:
        begin, size = page.run("""(() => { const it = replaycheck.opened.program.elf.functions.find((it) => it.name === 'verify');
          replaycheck.code.visit(it.address); return [it.address, it.size]; })()""")
        page.set("sweep-what", "words", "change")
        page.set("sweep-values", "flips")
        page.click_on("#sweep")
        options = [f"--words={begin}..{begin + size - 4}", "--words-values=flips", f"--step={page.run('replaycheck.step')}"]
        swept(bench, page, words_of("boot"), options, 32 * size // 4)


def picture_of_a_range(bench):
    """The edits of some bytes only: the program's table, also of an input of which all edits are too many; and ranges that are none."""
    with bench.open() as page:
        page.set("sweep-bytes", "0..1")
        page.set("sweep-values", "edges")
        page.click_on("#sweep")
        options = ["--bytes=0..1", "--values=edges", f"--step={page.run('replaycheck.step')}"]
        swept(bench, page, STATION, options, len(bench.table(STATION, *options)))
        page.until("document.getElementById('counted').textContent.includes('edge-value edits of bytes 0..1')")
        for text in ("1..0", "41", "x", "3..x", "-1"):
            page.set("sweep-bytes", text)
            page.click_on("#sweep")
            expect("A range of bytes is A..B, A.. or A" in page.text("notice"), f"{text}: {page.text('notice')!r}")
        bench.give(page, {"program": (TOP / "examples/firmware/station.elf").read_bytes(), "input": bytes(20000)})
        bench.settle(page)
        page.set("sweep-bytes", "19999..")
        page.set("sweep-values", "flips")
        page.click_on("#sweep")
        page.until("document.getElementById('counted').textContent.includes('8 one-bit edits of byte 19999')", 60)


def steps_swept(bench, page, fault, options):
    """Whether the page's sweep of steps comes to the program's table, edit by edit. Returns how many edits these are."""
    page.click_on("#sweep")
    page.until(SWEPT, 120)
    told = page.run("""(() => { const { places, outcomes } = replaycheck.sweeps.sweep.swept;
      return [...places].flatMap(([at, it]) => it.values.map((value, index) => [at, value, outcomes[it.outcomes[index]]])); })()""")
    step = page.run("replaycheck.opened.follow")
    want = bench.table(words_of("boot"), f"--faults={fault}", f"--step={step}", *options)
    same(f"outcomes of {fault}", {list(edits_of(fault, at, None))[value]: text for at, value, text in told}, want)
    return len(told)


def picture_of_steps(bench):
    """The machine altered before a step, and before the steps of a function: the program's table, and a cell that makes an edit."""
    with bench.open("boot") as page:
        page.set("sweep-what", "step", "change")
        page.click_on("#sweep")
        expect("a step at which the run has ended" in page.text("notice"), f"at the end: {page.text('notice')!r}")
        page.run("replaycheck.steps.choose(1262)")
        bench.settle(page)
        for fault, count in (("skip", 1), ("registers", 992), ("pc", 32), ("zero", 31), ("ones", 31)):
            page.set("sweep-values", fault)
            same(f"edits of {fault}", steps_swept(bench, page, fault, ["--at=1262"]), count)
        expect("31 registers set to all ones at step 1,262" in page.text("counted"), f"it counts {page.text('counted')!r}")
        page.run("replaycheck.sweeps.picture.here = { column: 0, row: 0 }; replaycheck.sweeps.picture.choose()")
        bench.same_report(page, words_of("boot"), "a register set at a step")
        same("the edit of the cell", page.run("replaycheck.scenario.lines"), ["set 1262 x1 0xffffffff"])
        page.run("replaycheck.use('')")
        bench.settle(page)
        begin, size = page.run("""(() => { const it = replaycheck.opened.program.elf.functions.find((it) => it.name === 'verify');
          replaycheck.code.visit(it.address); return [it.address, it.size]; })()""")
        page.set("sweep-what", "steps", "change")
        last = page.run("replaycheck.steps.last") - 1
        options = [f"--at=0..{last}", f"--code-range={begin:#x}..{begin + size - 4:#x}"]
        same("the function's steps", steps_swept(bench, page, "skip", options) > 10, True)
        first = page.run("replaycheck.sweeps.picture.cells.findIndex((it) => it)")
        page.run(f"replaycheck.sweeps.picture.here = {{ column: {first}, row: 0 }}; replaycheck.sweeps.picture.tell()")
        expect(re.match(r"skip \d+", page.text("picture-told")), f"a cell says {page.text('picture-told')!r}")


def picture_of_edits(bench):
    """The sweep of an edited run is the program's table of the files that the edits make, and what they can't have is told."""
    lines = ["patch 0x10368 0x00800493", "input 27 2", "input append 7", "supp add Cond fun:show fun:main fun:_start",
             "supp add Leak match-leak-kinds:definite fun:malloc fun:add_limits"]
    with bench.open() as page, tempfile.TemporaryDirectory() as folder:
        page.run(f"replaycheck.use({json.dumps(chr(10).join(lines))})")
        bench.same_report(page, STATION, "the edited run")
        program = bytearray((TOP / "examples/firmware/station.elf").read_bytes())
        offset, at = struct.unpack_from("<II", program, struct.unpack_from("<I", program, 28)[0] + 4)
        struct.pack_into("<I", program, offset + 0x10368 - at, 0x00800493)
        given = bytearray((TOP / "examples/firmware/station.input").read_bytes() + b"\7")
        given[27] = 2
        supp = (b"{\nknown\nMemcheck:Cond\nfun:show\nfun:main\nfun:_start\n}\n"
                b"{\nother\nMemcheck:Leak\nmatch-leak-kinds: definite\nfun:malloc\nfun:add_limits\n}\n")
        paths = [pathlib.Path(folder, it) for it in ("program", "input", "supp")]
        for path, content in zip(paths, (program, given, supp)):
            path.write_bytes(content)
        page.set("sweep-values", "edges")
        page.click_on("#sweep")
        words = [str(paths[0]), "--input", str(paths[1]), "--supp", str(paths[2])]
        options = ["--values=edges", f"--step={page.run('replaycheck.step')}"]
        swept(bench, page, words, options, len(bench.table(words, *options)))
        expect("of the run with 5 edits" in page.text("sweep-told"), f"it says {page.text('sweep-told')!r}")
        page.run("replaycheck.use('mark 55 0x20011 2 undefined\\noption queue 0')")
        bench.settle(page)
        page.click_on("#sweep")
        page.until("document.getElementById('sweep-told').textContent.includes('Left out: marks, options of the heap.')", 120)


def picture_of_the_run(bench):
    """The picture stays that of the recorded run, which what is said of a byte names after an edit. That of an edited run is made where one
    asks for it, and is greyed where another run is shown, until the recorded one's is there again. What a sweep can't have of a run is
    named too."""
    with bench.open(words="") as page, tempfile.TemporaryDirectory() as folder:
        page.until(SWEPT, 120)
        same("a byte of the unedited run", page.run("replaycheck.byteTold(2)"),
             "byte 2: 0x68. None of 255 other values changes anything.")
        page.run("replaycheck.use('input 0 0')")
        bench.settle(page)
        stale = "document.getElementById('picture-parts').classList.contains('stale')"
        expect(not page.run(stale), "the picture of the recorded run is greyed")
        expect("Of the unedited run: " in page.run("replaycheck.byteTold(2)"), "a byte's sentence doesn't say of which run it is")
        page.click_on("#sweep")
        page.until(f"{SWEPT} && !replaycheck.sweeps.isRecorded", 120)
        given = pathlib.Path(folder, "input")
        given.write_bytes(b"\0" + (TOP / "examples/firmware/station.input").read_bytes()[1:])
        words, step = [STATION[0], "--input", str(given)], page.run("replaycheck.step")
        swept(bench, page, words, [f"--step={step}"], 10455)
        table = bench.table(words, "--bytes=2", f"--step={step}")
        alike = sum(text == "exited 1" for text in table.values())
        told = page.run("replaycheck.byteTold(2)")
        expect(f"Of 255 other values, {alike} change" in told, f"it says {told!r}, and {alike} values change nothing")
        expect("of the run with 1 edit" in page.text("sweep-told"), f"it says {page.text('sweep-told')!r}")
        is_stale, other = page.run(f"(async () => {{ replaycheck.go(500); await replaycheck.isBusy;"
                                   f" return [{stale}, replaycheck.sweeps.otherRun]; }})()")
        expect(is_stale, "the picture of another run isn't greyed")
        expect("Of the run with 1 edit" in other, f"another step isn't another run: {other!r}")
        page.until("replaycheck.sweeps.isRecorded", 20)
        same("the recorded run's sentence again", page.run("replaycheck.byteTold(2)"),
             "byte 2: 0x68. Of the unedited run: None of 255 other values changes anything.")
        swept_places = page.run("replaycheck.sweeps.picture.cells.filter((it) => it).length")
        same("the recorded run's cells again", swept_places, 10455)
        page.run("replaycheck.use('mark 55 0x20011 2 undefined')")
        bench.settle(page)
        page.click_on("#sweep")
        page.until(f"{SWEPT} && replaycheck.sweeps.of.left.length && !{stale}", 120)
        same("what is left out", page.run("replaycheck.sweeps.otherRun"), "Of this run, without marks: ")


# Edits, and which cells of the recorded run's picture are ringed: of each the byte and the value.
RINGED = [([], []), (["input 1 8"], [[1, 8]]), (["input 1 8", "input 37 250"], [[1, 8], [37, 250]]), (["input append 7"], []),
          (["input 1 8", "mark 55 0x20011 2 undefined"], [[1, 8]])]


def rings(bench):
    """The edits that stand are ringed in the picture of the recorded run, and a click there makes its edit of that run."""
    with bench.open(words="?workers=2") as page:
        page.until(f"{SWEPT} && replaycheck.sweeps.isRecorded", 120)
        inked = """(([at, value]) => { const { picture } = replaycheck.sweeps, on = picture.canvas.getContext('2d');
          picture.draw();
          const [x, y, wide, tall] = picture.box(at * picture.rows + value), t = Math.max(9, tall), top = Math.max(1, y + (tall - t) / 2);
          const { data } = on.getImageData(Math.round(x + wide / 2), Math.round(top) - 1, 1, 2);
          return Math.max(...[...data].filter((_, i) => i % 4 < 3)) < 90;
        })"""
        for edits, wanted in RINGED:
            page.run(f"replaycheck.use({json.dumps(chr(10).join(edits))})")
            bench.settle(page)
            same(f"{edits}: rings", page.run("replaycheck.sweeps.chosen.filter(([at]) => at < 41)"), wanted)
            for cell in ([1, 8], [37, 250]):
                same(f"{edits}: whether {cell} is ringed", page.run(f"{inked}({cell})"), cell in wanted)
        page.run("document.getElementById('picture').scrollIntoView({ block: 'center' })")
        page.click(*place_of(page, 37, 250))
        bench.same_report(page, STATION, "a click on the recorded run's picture")
        same("the edit of the click, in place of those before", page.run("replaycheck.scenario.lines"), ["input 37 250"])
        page.run("replaycheck.use('input 0 0')")
        bench.settle(page)
        page.set("sweep-bytes", "37")
        page.click_on("#sweep")
        page.until(f"{SWEPT} && !replaycheck.sweeps.isRecorded", 60)
        same("rings of another run", page.run("replaycheck.sweeps.chosen"), [])
        page.run("replaycheck.sweeps.picture.here = { column: 0, row: 250 }; replaycheck.sweeps.picture.choose()")
        bench.same_report(page, STATION, "a cell of the edited run's picture")
        same("its edit beside the other one", page.run("replaycheck.scenario.lines"), ["input 0 0", "input 37 250"])


ABOVE = """(() => { const { picture } = replaycheck.sweeps, { drawing } = replaycheck.strip, scale = devicePixelRatio || 1;
  const [one, other] = ['picture', 'strip'].map((it) => document.getElementById(it).getBoundingClientRect());
  const found = picture.cells.map((cell, index) => [cell, index]).filter(([cell]) => cell);
  return [Math.abs(one.left - other.left) + Math.abs(one.width - other.width), one.bottom <= other.top,
    Math.max(...found.map(([cell, index]) => Math.abs(picture.box(index)[0] / scale - drawing.x(cell.at)))),
    found.every(([cell, index]) => picture.columnNear((picture.box(index)[0] + picture.box(index)[2] / 2) / scale, index % picture.rows)
      === Math.floor(index / picture.rows)), found.length]; })()"""


def picture_over_the_strip(bench):
    """The picture of faults at steps is above the strip, each cell over its step, also where the strip is zoomed; pointer and keys reach
    its cells. That of bytes is below the bytes again."""
    with bench.open("boot", words="?workers=2") as page:
        page.until(SWEPT, 120)
        page.run("""(() => { const it = replaycheck.opened.program.elf.functions.find((it) => it.name === 'verify');
          replaycheck.code.visit(it.address); })()""")
        page.set("sweep-what", "steps", "change")
        page.run("replaycheck.steps.choose(1262)")
        bench.settle(page)
        for fault, zoom in (("skip", 1), ("skip", 0.1), ("zero", 1)):
            page.set("sweep-values", fault)
            page.click_on("#sweep")
            page.until(f"{SWEPT} && replaycheck.sweeps.picture.isOfSteps && replaycheck.strip.plain.isDone", 60)
            page.run(f"replaycheck.strip.all(); replaycheck.strip.zoom({zoom}, 1262)")
            page.run("new Promise((done) => { requestAnimationFrame(() => requestAnimationFrame(done)); })")
            beside, is_above, far, is_met, count = page.run(ABOVE)
            expect(beside < 1 and is_above and far < 1 and count > 10, f"{fault}, zoomed {zoom}: {beside, is_above, far, count}")
            expect(is_met or zoom == 1, f"{fault}, zoomed {zoom}: a pointer doesn't meet each cell")
        page.run("(() => { const { picture } = replaycheck.sweeps; picture.here = { column: 0, row: 0 }; picture.canvas.focus(); })()")
        page.press("ArrowRight")
        first = page.text("picture-told")
        page.press("ArrowRight")
        told = page.text("picture-told")
        steps = [int(re.match(r"set (\d+) x1 0x00000000", text)[1]) for text in (first, told)]
        same("the next cell by a key", steps[1] > steps[0], True)
        page.press("Enter")
        bench.same_report(page, words_of("boot"), "a cell by Enter")
        same("its edit", page.run("replaycheck.scenario.lines"), [f"set {steps[1]} x1 0x00000000"])
        same("its ring", page.run("replaycheck.sweeps.chosen"), [[steps[1], 0]])
        page.until("location.hash.includes('set+')", 10)
        same("whether the picture stays", page.run("[replaycheck.sweeps.isRecorded, replaycheck.sweeps.picture.isOfSteps]"), [True, True])
        page.set("sweep-what", "bytes", "change")
        page.set("sweep-values", "edges")
        page.click_on("#sweep")
        page.until(f"{SWEPT} && replaycheck.sweeps.picture.isOfBytes", 60)
        home = "document.getElementById('picture-home')"
        same("where the picture of bytes is", page.run(f"{home}.contains(replaycheck.sweeps.picture.canvas)"), True)


def goal(bench):
    """The edits that reach a goal are counted, stand first in the legend and are drawn large, as `explore --goal` finds them."""
    with bench.open("boot", words="") as page:
        page.until(SWEPT, 120)
        table = bench.table(words_of("boot"), f"--step={page.run('replaycheck.step')}")
        reached = [edit for edit, text in table.items() if text.startswith("exited 0")]
        same("the goal of the example", page.run("document.getElementById('goal').value"), "exited 0")
        want = f"{len(reached)} of them reaches the goal “exited 0”. "
        page.until("document.getElementById('sweep-told').textContent.includes('edits of the')")
        expect(len(reached) == 1 and want in page.text("sweep-told"), f"it says {page.text('sweep-told')!r}, not {want!r}")
        same("the first row of the legend", page.run("document.querySelector('#legend-rows .first').textContent"),
             "input {} {}".format(*reached[0]))
        page.set("goal", "exited 7", "input")
        expect("0 of them reach" in page.text("sweep-told"), f"it says {page.text('sweep-told')!r}")
        page.set("goal", "", "input")
        expect("goal" not in page.text("sweep-told"), f"it says {page.text('sweep-told')!r}")
        page.set("goal", "exited 0", "input")
        goal_of_words(bench, page)


def goal_of_words(bench, page):
    """The same of the words of a function, in a run with an edit."""
    page.run("replaycheck.use('input 4 0x61')")
    bench.settle(page)
    begin, size = page.run("""(() => { const it = replaycheck.opened.program.elf.functions.find((it) => it.name === 'verify');
      replaycheck.code.visit(it.address); return [it.address, it.size]; })()""")
    page.set("sweep-what", "words", "change")
    page.set("sweep-values", "skip")
    page.click_on("#sweep")
    page.until(f"{SWEPT} && !replaycheck.sweeps.isStale && replaycheck.sweeps.of.asked.kind === 'words'", 120)
    given = (TOP / "examples/firmware/boot.input").read_bytes()
    with tempfile.NamedTemporaryFile() as file:
        file.write(given[:4] + b"a" + given[5:])
        file.flush()
        table = bench.table([words_of("boot")[0], "--input", file.name], f"--words={begin}..{begin + size - 4}", "--words-values=skip",
                            f"--step={page.run('replaycheck.step')}")
    reached = [at for (at, _), text in table.items() if text.startswith("exited 0")]
    expect(reached, "no word whose skip reaches the goal")
    page.until("document.getElementById('sweep-told').textContent.includes('of the run with 1 edit')", 10)
    told = f"{len(reached)} of them reach{'es' if len(reached) == 1 else ''} the goal “exited 0”. "
    expect(told in page.text("sweep-told"), f"it says {page.text('sweep-told')!r}, not {told!r}")
    same("the first row of the legend", page.run("document.querySelector('#legend-rows .first').textContent"),
         f"patch 0x{min(reached):08x} 0x00000013")
    told = f"{len(reached)} of {len(table)} skipped instructions of verify reach"
    expect(page.text("counted").startswith(told), f"it says {page.text('counted')!r}, not {told!r}")


def picture_stopped(bench):
    """A long sweep stops when it is told to, and the page answers."""
    with bench.page() as page:
        bench.give(page, {"program": (TOP / "examples/firmware/station.elf").read_bytes(), "input": bytes(4000)})
        bench.settle(page)
        page.click_on("#sweep")
        page.until("replaycheck.sweeps.sweep?.swept.edits > 0")
        page.click_on("#stop")
        page.until("document.getElementById('stop').disabled", 3)
        edits = page.run("replaycheck.sweeps.sweep.swept.edits")
        expect(0 < edits < 4000 * 255 and "stopped after" in page.text("sweep-told"), f"{edits} edits: {page.text('sweep-told')}")
        page.run("replaycheck.use('input 1 8')")
        bench.settle(page)
        same("edits after the stop", page.run("replaycheck.sweeps.sweep.swept.edits"), edits)


def too_many(bench):
    """More edits than the page holds, and a sweep of nothing, are refused in words."""
    with bench.page() as page:
        bench.give(page, {"program": (TOP / "examples/firmware/station.elf").read_bytes(), "input": bytes(20000)})
        bench.settle(page)
        page.click_on("#sweep")
        expect("5,100,000 edits" in page.text("notice"), f"it says {page.text('notice')!r}")
        bench.give(page, {"program": (TOP / "examples/use-after-free.elf").read_bytes()})
        bench.settle(page)
        page.click_on("#sweep")
        expect("nothing to sweep" in page.text("notice"), f"it says {page.text('notice')!r}")
