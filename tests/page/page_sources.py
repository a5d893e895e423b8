"""The cases of test-page about sources and the two sections that follow a step: which files are a program's sources, what is dropped, what
is shown of them, and the variables beside it."""
import base64
import json

import page_modules
from page_bench import expect, same, words_of
from page_looks import CONTRASTS
from page_variables import LOST, facts_of, in_node
from checkout import TOP

FIRMWARE = TOP / "examples/firmware"
STATION = words_of("station")
NOW = "[...document.querySelectorAll('#source-rows tr.now .text')].map((it) => it.textContent)"
TOLD = "document.getElementById('source-told').textContent"

# ---- which files are sources, and which of their lines are shown

# Two paths, and how many parts they have in common at their ends.
TAILS = [
    ("the same name", "/home/me/src/main.c", "main.c", 1), ("a folder, too", "/home/me/src/main.c", "src/main.c", 2),
    ("another folder", "/home/me/src/main.c", "lib/main.c", 1), ("another name", "/home/me/src/main.c", "main.h", 0),
    ("only the end of a name", "/home/me/src/main.c", "ain.c", 0),
    ("a path that leads back", "src/x/../main.c", "src/main.c", 2),
    ("a path of Windows", r"C:\work\src\main.c", "src/main.c", 2), ("a dot", "./src/./main.c", "src/main.c", 2),
]
# The files that are there, the program's paths, the path that is looked for, the file that is found, and whether it may be another one.
FOUND = [
    ("the longest tail", ["lib/main.c", "src/main.c"], ["/x/src/main.c", "/x/lib/main.c"], "/x/src/main.c", "src/main.c", False),
    ("a name that two have", ["main.c"], ["/x/src/main.c", "/x/lib/main.c"], "/x/src/main.c", "main.c", True),
    ("none", ["main.h"], ["/x/src/main.c"], "/x/src/main.c", None, None),
]
# A line, where functions begin, the text, and the first and the last line that are shown.
TEXT = ["#include <a.h>", "", "/* One. */", "int one(void)", "{", "}", "", "/* Two. */", "int two(void)", "{", "    return 2;", "}", ""]
SPANS = [
    ("a function and what is above it", 5, [4, 9], [3, 6]), ("the next one", 11, [4, 9], [8, 12]),
    ("a line of none", 2, [4, 9], [1, 2]), ("no functions", 5, [], [1, 12]),
]
# Files, and a path that each names.
PATHS = [("examples/firmware/station.elf", "../firmware/station.c"), ("examples/packet.elf", "../firmware/../packet.s")]
NODE = """
import { readFileSync } from 'node:fs';
import { Elf } from './debuginfo/elf.js';
import { Lines } from './debuginfo/lines.js';
import { SourceFiles, spanOf, tailOf } from './files/source-files.js';
const found = FOUND.map(([, files, paths, path]) => {
  const sources = new SourceFiles();
  for (const it of files) sources.add(it, it);
  const it = sources.find(path, paths);
  return [it?.path ?? null, it?.isUnsure ?? null];
});
console.log(JSON.stringify([TAILS.map(([, one, other]) => tailOf(one, other)), found,
  SPANS.map(([, line, openings]) => Object.values(spanOf(line, openings, TEXT))),
  PATHS.map(([file]) => [...new Lines(new Elf(new Uint8Array(readFileSync(file)))).paths])]));
"""


def source_names(_):
    """Files are found by the ends of their paths, and of a function all lines are shown that belong to it."""
    files = [[str(TOP / file), path] for file, path in PATHS]
    tables = {"TAILS": TAILS, "FOUND": FOUND, "SPANS": SPANS, "TEXT": TEXT, "PATHS": files}
    told = page_modules.answered("".join(f"const {name} = {json.dumps(it)};\n" for name, it in tables.items()) + NODE)
    for (label, *_, want), got in zip(TAILS, told[0]):
        same(label, got, want)
    for (label, *_, path, is_unsure), got in zip(FOUND, told[1]):
        same(label, got, [path, is_unsure])
    for (label, *_, want), got in zip(SPANS, told[2]):
        same(label, got, want)
    for (file, path), got in zip(PATHS, told[3]):
        expect(path in got, f"{file} names {got}, and not {path}")


# ---- the source

STEPS = (40, 60, 128, 300, 500, 684, 700, 828)


def go(bench, page, step):
    page.run(f"replaycheck.go({step})")
    bench.settle(page)
    page.until(f"replaycheck.source.step === {step}")


def source_follows(bench):
    """The line at which the run is is marked, and in view, at each step; a line leads to its code, and code to its line."""
    texts = {path.name: path.read_text().split("\n") for path in FIRMWARE.iterdir() if path.suffix in (".c", ".h", ".S")}
    with bench.open() as page:
        page.run("(() => { document.getElementById('source').style.maxHeight = '6rem'; })()")
        for step in STEPS:
            go(bench, page, step)
            name, line = page.run("replaycheck.opened.lineOf(replaycheck.machine.seen.pc)").split(":")
            same(f"the line of step {step}", page.run(NOW), [texts[name][int(line) - 1] or " "])
            same(f"its file at step {step}", page.run(TOLD), name)
            expect(page.run("""(() => { const row = document.querySelector('#source-rows tr.now').getBoundingClientRect();
              const box = document.getElementById('source').getBoundingClientRect();
              return row.top >= box.top - 1 && row.bottom <= box.bottom + 1; })()"""), f"the line of step {step} isn't in view")
        page.run("replaycheck.code.visit(replaycheck.opened.elf.functions.find((it) => it.name === 'set_name').address)")
        name, line = page.run("replaycheck.opened.lineOf(replaycheck.code.at)").split(":")
        same("the line of set_name", page.run("document.querySelector('#source-rows tr.at .text').textContent"), texts[name][int(line) - 1])
        expect(page.run("document.getElementById('source-rows').textContent").count("set_name(") == 1, "set_name isn't shown as a whole")
        page.run("[...document.querySelectorAll('#source-rows button')].at(-1).focus()")
        page.press("Home", modifiers=2)
        page.press("ArrowDown", "Enter")
        line = page.run("document.activeElement.textContent")
        same("the code of a line", page.run("replaycheck.opened.lineOf(replaycheck.code.at)"), f"station.c:{line}")
        same("complaints", page.complaints(), [])


DROP = """(async (files) => { const dataTransfer = new DataTransfer();
  for (const [name, text] of files) dataTransfer.items.add(new File([Uint8Array.from(atob(text), (it) => it.charCodeAt(0))], name));
  await replaycheck.opening.dropped({ preventDefault() {}, dataTransfer }); })"""


def drop(bench, page, *files):
    """Drops files, each with a name and bytes, at once."""
    page.run(f"{DROP}({json.dumps([[name, base64.b64encode(content).decode()] for name, content in files])})")
    page.until("!replaycheck.isBusy")


def bytes_of(name):
    return (FIRMWARE / name).read_bytes()


def sources_dropped(bench):
    """Sources that are dropped, with a program or after it, are told from inputs by the names that the program has, and shown as text."""
    elf, given, source = ("a.elf", bytes_of("station.elf")), ("given", bytes_of("station.input")), ("station.c", bytes_of("station.c"))
    files = "Object.fromEntries(Object.entries(replaycheck.opening.files).map(([role, it]) => [role, it.name]))"
    lines = "document.getElementById('source-rows').children.length"
    with bench.page() as page:
        drop(bench, page, elf, given)
        go(bench, page, 684)
        same("what it wants", page.run(TOLD), "Drop station.c anywhere on this page to see its lines, or choose it here.")
        page.run("replaycheck.use('goto 684\\ninput 37 5')")
        bench.settle(page)
        drop(bench, page, source)
        same("files after a source", page.run(files), {"program": "a.elf", "input": "given"})
        same("edits after a source", page.run("replaycheck.lines"), ["goto 684", "input 37 5"])
        same("the line", page.run(NOW)[0][:20], "    if (unit == 'i')")
        drop(bench, page, ("notes.c", b"no source of it"))
        same("files after one that is no source", page.run(files), {"program": "a.elf", "input": "notes.c"})
        drop(bench, page, source, ("b.elf", elf[1]), given, ("heap_by_name.c", bytes_of("heap_by_name.c")))
        go(bench, page, 684)
        same("files of a drop of all", page.run(files), {"program": "b.elf", "input": "given"})
        same("the line then", page.run(NOW), ["        show(&station, unit);"])
        drop(bench, page, ("c.elf", elf[1]), given)
        go(bench, page, 684)
        same("lines of another program", page.run(lines), 0)
        drop(bench, page, ("station.c", b"<img src=x onerror='globalThis.hacked = 1'>\n" * 200))
        same("a line with markup", page.run(NOW), ["<img src=x onerror='globalThis.hacked = 1'>"])
        same("what it did", page.run("[globalThis.hacked ?? null, document.querySelectorAll('img').length]"), [None, 0])
        drop(bench, page, ("station.c", b"one line"))
        expect("it must be another version" in page.run(TOLD), f"of another version it says {page.run(TOLD)!r}")
        same("lines of another version", page.run(lines), 0)
        same("complaints", page.complaints(), [])


FOLDER = """(async (text) => {
  const file = (name, path) => ({ isFile: true, fullPath: path, file: (done) => done(new File([text], name)) });
  const folder = (...parts) => ({ isDirectory: true, createReader: () => ({ readEntries: (done) => done(parts.splice(0, 1)) }) });
  const all = folder(file('notes.txt', '/p/notes.txt'), folder(file('station.c', '/p/src/station.c')), file('other.c', '/p/other.c'));
  const item = { kind: 'file', webkitGetAsEntry: () => all, getAsFile: () => new File([], 'p') };
  await replaycheck.opening.dropped({ preventDefault() {}, dataTransfer: { items: [item], files: [] } }); })"""


def folder_dropped(bench):
    """Of a folder that is dropped, and of files that are chosen, the sources are taken and no other file."""
    with bench.page() as page:
        bench.give(page, {"program": bytes_of("station.elf"), "input": bytes_of("station.input")})
        go(bench, page, 684)
        page.run(f"{FOLDER}({json.dumps(bytes_of('station.c').decode())})")
        same("the line of a folder's file", page.run(NOW), ["        show(&station, unit);"])
        same("the files that are taken", page.run("[...replaycheck.source.given.values()].flatMap((it) => it.files.map((it) => it.path))"),
             ["/p/src/station.c"])
        page.run("""(async () => { const transfer = new DataTransfer(), field = document.getElementById('open-sources');
          transfer.items.add(new File(['x'], 'nothing.txt'));
          field.files = transfer.files;
          field.dispatchEvent(new Event('change')); })()""")
        page.until("!document.getElementById('notice').hidden")
        expect("isn’t a source of “program.elf”" in page.text("notice"), f"it says {page.text('notice')!r}")


# ---- the variables

ROWS = """[...document.querySelectorAll('#variable-rows tr:has(th)')].map((it) => [it.querySelector('th').textContent,
  [...it.querySelector('.value').childNodes].filter((it) => !it.classList?.contains('unseen')).map((it) => it.textContent).join('')])"""


def variables_shown(bench):
    """The section shows the variables in scope at the step, by the program's own registers and memory, and where bits are undefined."""
    with bench.open() as page:
        for edits, step in (([], 684), (["input 37 5"], 684), (["input 37 5"], 700), ([], 300)):
            page.run(f"replaycheck.use({json.dumps(chr(10).join([*edits, f'goto {step}']))})")
            bench.settle(page)
            [told] = in_node(STATION[0], facts_of(bench.program, STATION, [step], edits))
            lost = list(dict.fromkeys(it["name"] for it in told["rows"] if it["text"] == LOST))
            want = [[it["name"], it["text"]] for it in told["rows"] if it["text"] != LOST]
            want += [["optimized out", ", ".join(lost)]] if lost else []
            page.until(f"JSON.stringify({ROWS}) === {json.dumps(json.dumps(want, separators=(',', ':'), ensure_ascii=False))}", 10)
            marked = page.run("[...document.querySelectorAll('#variable-rows .undefined')].length > 0")
            same(f"undefined values at step {step}", marked, any(it["undefined"] for it in told["rows"]))
        page.run("replaycheck.use('goto 684')")
        bench.settle(page)
        page.until(f"{ROWS}.some(([name]) => name === 'unit')", 10)
        bench.tab(page, "variables")
        page.run("document.querySelector('#variable-rows button').focus()")
        at = int(page.run("document.activeElement.title").split("0x")[1], 16)
        page.press("Enter")
        page.until(f"replaycheck.machine.at === {at}", 10)
        page.run("(() => { document.getElementById('globals').open = true; })()")
        page.until("document.getElementById('global-rows').textContent.includes('records')", 10)
        page.run("replaycheck.go(replaycheck.opened.follow)")
        page.until("document.getElementById('variables-told').textContent.startsWith('The run has ended')", 10)
        same("variables after the end", page.run(ROWS), [])
        same("complaints", page.complaints(), [])


def sections_seen(bench):
    """With values of each kind, undefined ones among them, both sections are read in light and dark, and fit into a narrow page."""
    for width, dark in ((360, False), (360, True), (2560, False)):
        with bench.open(width=width, dark=dark) as page:
            page.run("replaycheck.use('input 37 5\\ngoto 676')")
            bench.settle(page)
            page.until("document.querySelector('#variable-rows .undefined') && document.querySelector('#source-rows .now') && true", 10)
            page.run("(() => { document.getElementById('globals').open = true; })()")
            page.until("document.getElementById('global-rows').children.length", 10)
            bench.tab(page, "variables")
            same("texts of poor contrast", [it for it in page.run(CONTRASTS) if it[0] < 4.5], [])
            same("the width", page.run("document.documentElement.scrollWidth"), width)
            for part in ("variables-panel", "source-part"):
                beyond = page.run(f"(({{ scrollWidth, clientWidth }}) => scrollWidth - clientWidth)(document.getElementById('{part}'))")
                same(f"what is beyond {part} at {width}", beyond, 0)
