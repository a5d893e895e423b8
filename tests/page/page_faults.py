"""The cases of test-page about what a user may meet: files of all sorts, work that is stopped or fails, keys alone."""
import json
import pathlib
import random
import struct
import subprocess
import tempfile
import time

from checkout import TOP
from guest_files import elf
from page_bench import EXAMPLES, SWEPT, Wrong, expect, same, words_of

STATION = words_of("station")
LARGEST_MODULE = 1_500_000  # bytes


def content_of(example, role="program"):
    return (TOP / "examples" / EXAMPLES[example][role]).read_bytes()


# ---- opening


def drop(bench):
    """Files that are dropped on the page, all at once: each by what is in it. A text that is dropped is left to the browser."""
    files = [["packet.elf", list(content_of("packet"))], ["known.supp", list(b"{\nknown\nMemcheck:Addr1\nfun:total\n}\n")],
             ["packet.input", list(content_of("packet", "input"))]]
    dropped = """((files) => { const dataTransfer = new DataTransfer();
      for (const [name, bytes] of files) dataTransfer.items.add(new File([Uint8Array.from(bytes)], name));
      if (!files.length) dataTransfer.setData('text/plain', 'input 0 9');
      return document.body.dispatchEvent(new DragEvent('drop', { dataTransfer, bubbles: true, cancelable: true })); })"""
    with bench.page() as page:
        expect(page.run(f"{dropped}([])"), "a dropped text is taken away from the browser")
        expect(not page.run(f"{dropped}({json.dumps(files)})"), "dropped files are left to the browser")
        bench.settle(page)
        page.run("replaycheck.use('input 0 9')")
        bench.settle(page)
        told = page.run("[replaycheck.shown.report.errors, replaycheck.shown.report.suppressed > 0]")
        same("errors, and whether some are suppressed", told, [0, True])


def unreadable_files(bench):
    """A file that can't be read, as a folder, and one that is far too large are told."""
    with bench.open() as page:
        for size, told in ((10, "can’t be read"), (1 << 30, "too much")):
            page.run("replaycheck.opening.takeRead([{ name: 'folder', size: " + str(size) +
                     ", arrayBuffer: () => Promise.reject(new Error('no file')) }], () => 'input')")
            expect(told in page.text("notice"), f"{page.text('notice')!r} doesn't say {told!r}")
        bench.same_report(page, STATION, "the page after them")


def opened_in_turn(bench):
    """Programs that are opened one after another, each while the one before is at work: the last one is shown, and nothing of
    the others."""
    with bench.page(words="") as page:
        for wait in ("", "!replaycheck.sweeps.sweep", "!replaycheck.sweeps.sweep?.swept.edits", "!replaycheck.steps.landmarks.length"):
            for name in ("station", "packet", "kinds", "station"):
                page.run(f"(() => {{ globalThis.chosen = replaycheck.opening.choose('{name}'); }})()")
                if wait:
                    page.until(f"!({wait})")
            page.run("globalThis.chosen")
            page.until("replaycheck.shown && document.title.startsWith('station.elf')")
            bench.same_report(page, STATION, f"after {wait}")
            page.until(SWEPT, 120)
            same("edits of the sweep", page.run("replaycheck.sweeps.sweep.swept.edits"), 10455)
            same("what is told", page.text("notice"), "")
        page.focus("bytes")
        page.press("0", "3")
        page.run("(() => { replaycheck.opening.choose('packet'); })()")
        page.press("0")
        page.press("z", modifiers=2)
        page.until("document.title.startsWith('packet.elf')", 20)
        bench.same_report(page, words_of("packet"), "another program while one types")
        same("complaints", page.complaints(), [])


def bad_files(bench):
    """Files that can't be run are told in a sentence with what to do, and the next file is opened."""
    packet = content_of("packet")
    cases = ((b"hello", None, ".elf file"), (packet[:4] + b"\x02" + packet[5:], None, "-march=rv32im"),
             (packet[:18] + b"\x3e" + packet[19:], None, "not for RISC-V"), (packet[:100], None, "damaged"),
             (packet, bytes((1 << 20) + 1), "shorter input"))
    with bench.page() as page:
        for program, given, told in cases:
            bench.give(page, {"program": program, **({"input": given} if given else {})})
            expect(told in page.text("notice"), f"{page.text('notice')!r} doesn't say {told!r}")
            page.press("z", modifiers=2)
            expect(page.run("document.getElementById('state-part').hidden"), "a report is shown")
        bench.give(page, {"program": packet})
        bench.settle(page)
        same("the notice of a good file", page.text("notice"), "")
        bench.give(page, {"supp": b"{\nno end"})
        expect("suppressions" in page.text("notice").lower(), "suppressions that can't be read aren't told")


def kept_work(bench):
    """A file that can't be used leaves the edits and the undo history; a good one is a step of the history, and edits stay over
    it where they fit. What is chosen before a program waits for it."""
    station, given = content_of("station"), content_of("station", "input")
    lines = "replaycheck.scenario.lines"
    with bench.page() as page:
        bench.give(page, {"input": given})
        expect("will be used with the next program" in page.text("notice"), f"it says {page.text('notice')!r}")
        bench.give(page, {"program": station})
        bench.same_report(page, STATION, "an input that was chosen first")
        for line in ("input 1 8", "patch 0x101e0 0x13", "input 40 9"):
            page.run(f"replaycheck.edit(replaycheck.scenario.after({json.dumps(line)}))")
            bench.settle(page)
        stood = page.run(lines)
        for files, told in (({"supp": b"{\nno end"}, "suppressions"), ({"input": bytes((1 << 20) + 1)}, "shorter input"),
                            ({"program": b"hello"}, ".elf file")):
            bench.give(page, files)
            expect(told in page.text("notice").lower() or told in page.text("notice"), f"it says {page.text('notice')!r}")
            bench.same_report(page, STATION, f"after a bad {list(files)[0]}")
            same("edits then", page.run(lines), stood)
        bench.give(page, {"input": given[:20]})
        bench.settle(page)
        same("edits over a shorter input", page.run(lines), [stood[0], "input 1 8"])
        expect("1 edit didn’t fit" in page.text("notice"), f"it says {page.text('notice')!r}")
        bench.give(page, {"program": content_of("packet")})
        bench.settle(page)
        same("edits of another program", page.run(lines), [])
        for want in ([stood[0], "input 1 8"], stood, stood[:-1]):
            page.press("z", modifiers=2)
            page.until(f"replaycheck.scenario && {lines}.join() === {json.dumps(','.join(want))}", 20)
        bench.same_report(page, STATION, "undone to the first files")
        for _ in range(3):
            page.press("y", modifiers=2)
        page.until(f"replaycheck.scenario && document.title === 'program.elf — replaycheck' && !{lines}.length", 20)
        bench.same_report(page, words_of("packet")[:1], "redone to the other program")


def without_sections(content):
    """A program without its sections, and so without symbols."""
    made = bytearray(content)
    struct.pack_into("<I", made, 32, 0)
    struct.pack_into("<3H", made, 46, 0, 0, 0)
    return bytes(made)


def unseen_heap(bench):
    """Where errors of the heap can't be found the page says so: of a file without symbols that makes no block by number."""
    by_number = (TOP / "examples/firmware/station-by-number.elf").read_bytes()
    with bench.page() as page:
        for content, is_unseen in ((content_of("station"), False), (without_sections(content_of("station")), True),
                                   (by_number, False), (without_sections(by_number), False),
                                   ((TOP / "examples/three-words.elf").read_bytes(), False)):
            bench.give(page, {"program": content, "input": content_of("station", "input")})
            bench.settle(page)
            told = "" if page.run("document.getElementById('heap-told').hidden") else page.text("heap-told")
            same("what is said of the heap", "has no symbols" in told, is_unseen)


# Lines of the manual, and how the program takes those that name a register otherwise.
MANUAL_LINES = [("set 600 a0 5", "set 600 x10 5"), ("set 600 fp 0x10 0xff", "set 600 x8 0x10 0xff"), ("flip 600 sp 16", "flip 600 x2 16"),
                ("flip 600 0x7fffff80 1", None), ("set 600 pc 0x10000", None), ("bytes 1 08", None), ("bytes 0x3 4142FF", None),
                ("bytes is 01086861", None), ("bytes is", None), ("bytes is " + "0102" * 30, None)]


def manual_lines(bench):
    """A line of the manual is used as it is, also with a register's other name, and comes to the program's report."""
    with bench.open() as page:
        for line, native in MANUAL_LINES:
            page.run(f"replaycheck.use({json.dumps(line)})")
            bench.same_report(page, STATION, line)
            same(f"{line}: what is said", page.text("notice"), "")
            text = "".join(f"{it}\n" for it in (native or line, "goto 100000", "report"))
            ran = subprocess.run([bench.program, "look", *STATION], input=text, capture_output=True, text=True, check=True)
            told = page.text("report-text").split("\n", 1)[1].rstrip("\n")
            same(f"{line}: the program's own", told, ran.stdout.split("\n", 3)[3].rstrip("\n"))


# Lines that a session refuses, and what the page says of each.
REFUSED = (
    ("goto 99999999", "“goto 99999999” was refused: "),
    ("goto 4194305", "was refused"),
    ("frob", "“frob” doesn’t edit a run: no such line"),
    ("goto x", "form of such a line is “goto STEP”"),
    ("set 600 q0 5", "“set 600 q0 5” doesn’t edit a run: the form of such a line is “set STEP REGISTER VALUE"),
    ("set 600 zero 5", "“set STEP REGISTER VALUE"),
    ("bytes 40 0102", "“bytes OFFSET HEX, of bytes that are there”"),
    ("bytes is 012", "“bytes is HEX”"),
    ("input 1", "“input OFFSET BYTE”"),
    ("supp", "“supp add KIND FRAME..,"),
)


def refused_lines(bench):
    """Lines that a session refuses are refused, with the reason, and none of their text is used."""
    with bench.open() as page:
        for line, told in REFUSED:
            page.run(f"replaycheck.use({json.dumps('input 1 8' + chr(10) + line)})")
            bench.settle(page)
            expect(told in page.text("notice"), f"{line}: it says {page.text('notice')!r}")
            same(f"lines after {line}", page.run("replaycheck.lines"), [])


def damaged(content, turn, chance):
    """A program with some bytes changed, and every other one cut."""
    made = bytearray(content[:chance.randrange(60, len(content))] if turn % 2 else content)
    for _ in range(chance.randrange(1, 12)):
        made[chance.randrange(min(len(made), 200 if turn % 4 == 0 else len(made)))] = chance.randrange(256)
    return bytes(made)


def damaged_files(bench):
    """Damaged programs harm nothing: each is told or run, as the program itself does, and the page goes on."""
    chance, content = random.Random(7), content_of("station")
    with bench.page() as page, tempfile.TemporaryDirectory() as folder:
        for turn in range(40):
            made, path = damaged(content, turn, chance), pathlib.Path(folder, "program")
            path.write_bytes(made)
            bench.give(page, {"program": made})
            page.until("!replaycheck.isBusy")
            step = page.run("replaycheck.shown?.step ?? 1024")
            ran = subprocess.run([bench.program, "run", path, "--step", str(step)], capture_output=True, text=True)
            if ran.returncode:
                expect(page.text("notice"), f"turn {turn}: nothing is told, and the program says {ran.stderr}")
            else:
                same(f"turn {turn}", page.text("report-text"), ran.stdout)
        same("complaints", page.complaints(), [])


def endless_tables(bench):
    """Tables of a file that name the same bytes again and again, or that have no end, don't hold up the page."""
    with bench.page() as page:
        spent = page.run("""(async () => {
          const { Elf } = await import('./debuginfo/elf.js'), { sourceLines } = await import('./debuginfo/lines.js');
          const bytes = new Uint8Array(16 << 20).fill(65), view = new DataView(bytes.buffer), begun = performance.now();
          const word = (at, value) => view.setUint32(at, value, true);
          word(0, 0x464c457f); word(32, 64); view.setUint16(46, 40, true); view.setUint16(48, 60000, true); view.setUint16(50, 0, true);
          for (let i = 0; i < 60000; i++) [4000000, 2, 0, 0, 4000000, 12000000, 0].forEach((it, k) => word(64 + 40 * i + 4 * k, it));
          for (let at = 4000000; at < 16000000; at += 16) { word(at, 1); word(at + 4, at); word(at + 8, 4); bytes[at + 12] = 2; }
          const elf = new Elf(bytes);
          const lines = new Elf(new Uint8Array(0));
          const unit = [20, 0, 0, 0, 5, 0, 4, 0, 9, 0, 0, 0, 1, 1, 1, 1, 1, 1, 0, 255, 255, 255, 255, 15, 0, 0, 0, 0, 0, 0];
          lines.bytes = Uint8Array.from(unit);
          lines.view = new DataView(lines.bytes.buffer);
          lines.sections = [{ name: '.debug_line', begin: 0, size: unit.length }];
          sourceLines(lines)(0);
          return [performance.now() - begun, elf.functions.length]; })()""")
        expect(spent[0] < 4000, f"it took {spent[0]} ms, for {spent[1]} functions")


# ---- hostile files


def markup_in_names(bench):
    """Symbols, file names and inputs with markup are shown as text."""
    name = "<img/src=x/onerror=globalThis.hacked=1>"
    words = [0x00000537, 0x00052503, 0x00000593, 0x05D00893, 0x00000073]
    program = elf(words, symbols=[(name, 0x10000, 20)])
    with bench.page() as page:
        bench.give(page, {"program": program, "input": b"<script>hacked=1</script>"}, name=f"{name}.elf")
        bench.settle(page)
        expect(name in page.text("report"), "the symbol isn't in the report")
        expect(name in page.text("function") and name in page.run("document.title"), "the names aren't shown")
        page.click_on("#report .frames button")
        page.run(f"replaycheck.use('supp add Addr4 fun:' + {json.dumps(name)})")
        bench.settle(page)
        expect(name in page.text("chips"), "the suppression isn't shown")
        same("elements of the markup", page.run("document.querySelectorAll('img, #main script').length"), 0)
        same("what it did", page.run("globalThis.hacked ?? null"), None)


def policy(bench):
    """The page's policy stops an inline script, and nothing of the page itself; its module is no larger than it may be."""
    expect((bench.folder / "replaycheck.wasm").stat().st_size < LARGEST_MODULE, "the module is too large")
    with bench.open() as page:
        same("complaints", page.complaints(), [])
        page.run("""(() => { const it = document.createElement('script'); it.textContent = 'globalThis.hacked = 1';
          document.body.append(it); })()""")
        same("an inline script", page.run("globalThis.hacked ?? null"), None)
        expect("Content Security Policy" in " ".join(page.complaints()), "the policy didn't stop it")


# ---- work that is stopped, or fails


def report_stopped(bench):
    """A report that takes long is told with a button; stopped, the page shows the one before, and answers the next edit."""
    path = TOP / "examples/firmware/polled.elf"
    with bench.page() as page:
        bench.give(page, {"program": path.read_bytes()})
        bench.settle(page)
        was = page.run("replaycheck.step")
        page.run("""(() => { replaycheck.use('goto 4000000\\nmark 0 0x10013000 8 undefined');
          setTimeout(() => document.getElementById('stop-report').click(), 30); })()""")
        page.until("!replaycheck.isBusy")
        expect("Stopped" in page.text("notice"), f"it says {page.text('notice')!r}")
        same("lines then", page.run("replaycheck.lines"), [])
        same("the step then", page.run("[replaycheck.step, replaycheck.shown.step]"), [was, was])
        page.run("replaycheck.use('goto 2000\\nmark 0 0x10013000 8 defined')")
        bench.same_report(page, [str(path)], "after the stop")
        page.run("(() => { replaycheck.told('It is made', new Promise((done) => { globalThis.done = done; })); })()")
        for is_hidden in ("false", "true"):
            page.until(f"document.getElementById('stop-report').hidden === {is_hidden}", 5)
            same("what is told", page.text("work").split(":")[0], "It is made" if is_hidden == "false" else "")
            page.run("globalThis.done()")


def no_worker(bench):
    """A worker that can't be started is told, and the next edit has another one."""
    with bench.open() as page:
        page.run("""(() => { const { program } = replaycheck.opened; globalThis.good = program.makeWorker;
          program.makeWorker = () => new Worker('nowhere.js'); replaycheck.opened.session.stop(); })()""")
        for value in (8, 9):
            page.run(f"replaycheck.use('input 1 {value}')")
            bench.settle(page)
            expect("failed in the browser" in page.text("notice"), f"it says {page.text('notice')!r}")
            same("lines", page.run("replaycheck.lines"), [])
        page.run("replaycheck.opened.program.makeWorker = globalThis.good")
        page.run("replaycheck.use('input 1 8')")
        bench.same_report(page, STATION, "with a worker again")
        same("what is told", page.text("notice"), "")


def memory_short(bench):
    """Where memory runs out that is told, and the page goes on."""
    for few in (20000, 150000):
        with bench.page(f"?still&memory={few}") as page:
            page.run("replaycheck.opening.choose('station')")
            page.until("document.getElementById('notice').textContent")
            expect("Memory ran out" in page.text("notice"), f"with {few} bytes it says {page.text('notice')!r}")
    with bench.open(words="?still&memory=12000000") as page:
        page.run("replaycheck.use('option show all\\nmark 0 0x20000 1000000 undefined\\ninput 1 8')")
        bench.settle(page)
        page.run("replaycheck.go(4194304)")
        page.until("!replaycheck.isBusy")
        page.run("replaycheck.use('')")
        bench.same_report(page, STATION, "after memory ran out")


def no_module(bench):
    """A browser without 64-bit memory is told what it lacks, and a module that isn't there is told as such."""
    for fault, told in (("new WebAssembly.CompileError('invalid memory limits flags')", "64-bit memory"),
                        ("new TypeError('Failed to fetch')", "could not be loaded")):
        with bench.page() as page:
            page.run(f"WebAssembly.compileStreaming = () => Promise.reject({fault})")
            page.run("replaycheck.opening.choose('station')")
            expect(told in page.text("notice"), f"it says {page.text('notice')!r}")


# ---- keys alone, and the page of one file


def tab_to(page, condition):
    for _ in range(400):
        if page.run(f"(() => {{ const it = document.activeElement; return {condition}; }})()"):
            return
        page.press("Tab")
    raise Wrong(f"Tab never comes to {condition}")


def by_keyboard(bench):
    """A walk by keys alone: an example, a byte, undo, an edit taken off, an instruction, a word, the picture."""
    with bench.page(words="") as page:
        tab_to(page, "it.closest('#examples') !== null")
        page.press("Enter")
        page.until("replaycheck.shown")
        tab_to(page, "it.id === 'bytes'")
        page.press("ArrowRight", "0", "8")
        bench.same_report(page, STATION, "a byte by keys")
        tab_to(page, "it.closest('#chips') !== null")
        page.press("Enter")
        bench.same_report(page, STATION, "an edit taken off by keys")
        same("lines", page.run("replaycheck.scenario.lines"), [])
        page.press("z", modifiers=2)
        bench.same_report(page, STATION, "undone by keys")
        tab_to(page, "it.getAttribute('role') === 'tab'")
        page.press("ArrowRight")
        same("the tab that an arrow key opens", page.run("document.activeElement.id"), "code-tab")
        tab_to(page, "it.closest('#code-rows') !== null")
        page.press("Enter")
        bench.same_report(page, STATION, "an instruction skipped by keys")
        same("edits", page.run("replaycheck.scenario.lines.length"), 2)
        same("what has the focus then", page.run("document.activeElement.textContent"), "put back")
        page.press("ArrowRight", "Enter", "Escape")
        same("what has the focus after a word that isn't set", page.run("document.activeElement.textContent"), "word…")
        page.press("Enter", "0", "x", "1", "3", "Enter")
        bench.same_report(page, STATION, "a word by keys")
        same("what has the focus after a word", page.run("document.activeElement.textContent"), "word…")
        tab_to(page, "it.id === 'picture'")
        page.until(SWEPT, 120)
        page.press("ArrowRight", "ArrowDown", "Enter")
        bench.same_report(page, STATION, "an edit of the picture by keys")


def one_file(bench):
    """The page of one file, from disk: an example, its instruction set, an edit, and the counts of its sweep."""
    with bench.browser.page(bench.file) as page:
        page.run("replaycheck.opening.choose('station')")
        bench.settle(page)
        same("the instruction set", page.run("[document.getElementById('isa').value, replaycheck.opened.isa]"), ["rv32im", "rv32im"])
        page.until(SWEPT, 120)
        same("edits", page.run("replaycheck.sweeps.sweep.swept.edits"), 10455)
        page.until("document.getElementById('sweep-told').textContent.includes('287 of them')")
        page.focus("bytes")
        page.press("ArrowRight", "0", "8")
        bench.same_report(page, STATION, "a byte in the page of one file")
        same("complaints", page.complaints(), [])


def folder_from_disk(bench):
    """The folder that is to be served says so where it is opened from disk."""
    told = "document.getElementById('unstarted')?.checkVisibility({ visibilityProperty: true })"
    with bench.browser.page((pathlib.Path(bench.folder) / "index.html").as_uri(), ready="true") as page:
        page.until(told, 10)
    with bench.page() as page:
        time.sleep(2.5)
        expect(not page.run(told), "it is told of a page that is served")
