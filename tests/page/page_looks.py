"""The cases of test-page about what is seen and heard: names, roles, contrast, widths, source lines, instructions."""
import json
import re
import shutil
import struct
import subprocess

from page_bench import SWEPT, TOP, expect, same, sweep_flips
from page_tabs import NAMES as TABS

WIDTHS = (360, 768, 1280, 1920, 2560)
USED = {"button", "checkbox", "combobox", "slider", "spinbutton", "textbox", "grid", "gridcell", "application", "disclosuretriangle",
        "link", "progressbar", "table"}
WANTED = ("application", "banner", "button", "checkbox", "contentinfo", "grid", "gridcell", "main", "slider", "status")
BINUTILS = "riscv64-unknown-elf-"
MEASURES = """
  const parts = (text) => (text.match(/[\\d.]+/g) ?? []).map(Number);
  const over = (top, below) => { const [r, g, b, a = 1] = top; return [r, g, b].map((it, i) => it * a + below[i] * (1 - a)); };
  const linear = (v) => (v <= .04045 ? v / 12.92 : ((v + .055) / 1.055) ** 2.4);
  const light = (it) => it.map((v) => linear(v / 255)).reduce((sum, v, i) => sum + v * [.2126, .7152, .0722][i], 0);
  const ground = (it) => (it ? over(parts(getComputedStyle(it).backgroundColor), ground(it.parentElement)) : [255, 255, 255]);
  const contrast = (ink, below) => {
    const [a, b] = [light(over(ink, below)), light(below)].sort((x, y) => y - x);
    return (a + .05) / (b + .05); };
  const found = [];
"""
CONTRASTS = "(() => {" + MEASURES + """
  const walk = document.createTreeWalker(document.body, NodeFilter.SHOW_TEXT);
  while (walk.nextNode()) {
    const it = walk.currentNode.parentElement, box = it.getBoundingClientRect();
    if (!walk.currentNode.textContent.trim() || !box.width || !it.checkVisibility() || /^(SCRIPT|OPTION|STYLE)$/.test(it.tagName)) continue;
    found.push([contrast(parts(getComputedStyle(it).color), ground(it)), walk.currentNode.textContent.trim().slice(0, 40)]);
  }
  return found; })()"""
# What is drawn: borders of what can be used, landmarks, and the ring around what has the focus.
DRAWN = "(() => {" + MEASURES + """
  for (const it of document.querySelectorAll('button:enabled, select, input, textarea, .landmark, .swatch')) {
    const { borderTopWidth, borderTopColor, backgroundColor } = getComputedStyle(it), below = ground(it.parentElement);
    if (!it.checkVisibility() || it.type === 'file' || it.type === 'range' || it.type === 'checkbox') continue;
    const isLandmark = it.matches('.landmark'), ink = parts(isLandmark ? backgroundColor : borderTopColor);
    const name = it.id || it.className || it.textContent;
    if (isLandmark || (parseFloat(borderTopWidth) && ink[3] !== 0)) found.push([contrast(ink, below), name]);
  }
  const pick = document.createElement('span');
  pick.style.color = 'var(--pick)';
  document.getElementById('input-part').append(pick);
  found.push([contrast(parts(getComputedStyle(pick).color), ground(pick)), 'the ring of the focus']);
  return found; })()"""
WORK = "input 1 8\nmark 55 0x20011 2 undefined\npatch 0x101e0 0x13\ninput append 7"


def opened(bench, **shape):
    """A page with errors that are new, edits of each kind, and a picture."""
    page = bench.open(**shape)
    page.run(f"replaycheck.use({json.dumps(WORK)})")
    bench.settle(page)
    sweep_flips(page)
    page.run("[...document.querySelectorAll('details')].forEach((it) => { it.open = true; })")
    return page


def names_and_roles(bench):
    """What can be used has a name and a role, and the page has its landmarks, whichever tab is open."""
    with opened(bench) as page:
        nodes = []
        for name in TABS:
            bench.tab(page, name)
            nodes += [it for it in page.call("Accessibility.getFullAXTree")["nodes"] if not it.get("ignored")]
        roles = [it["role"]["value"].lower() for it in nodes]
        nameless = [role for role, it in zip(roles, nodes) if role in USED and not it.get("name", {}).get("value", "").strip()]
        same("roles of nodes without a name", nameless, [])
        for wanted in WANTED:
            expect(wanted in roles, f"no {wanted} is among the roles")
        focusable = page.run("""[...document.querySelectorAll('[tabindex="0"], button, input, select, textarea, summary')]
          .filter((it) => it.checkVisibility() && getComputedStyle(it).visibility === 'visible').length""")
        expect(focusable > 30, f"{focusable} elements alone can be focused")
        twice = page.run("""(() => { const all = [...document.querySelectorAll('[id]')].map((it) => it.id);
          return all.filter((it, i) => all.indexOf(it) < i); })()""")
        same("ids given twice", twice, [])


def contrast(bench):
    """No text has less contrast than 4.5 to 1, and nothing that is drawn less than 3 to 1, in light and in dark."""
    for dark in (False, True):
        with opened(bench, dark=dark) as page:
            page.run("replaycheck.linked.show(replaycheck.opened.lines.placeAt(replaycheck.code.at), true)")
            for name in TABS:
                bench.tab(page, name)
                found, label = page.run(CONTRASTS), f"{name}, {'dark' if dark else 'light'}"
                expect(len(found) > 100, f"{len(found)} texts alone were looked at")
                same(f"texts of poor contrast, {label}", [it for it in found if it[0] < 4.5], [])
                found = page.run(DRAWN)
                expect(len(found) > 30, f"{len(found)} drawn things alone were looked at")
                same(f"drawn things of poor contrast, {label}", [it for it in found if it[0] < 3], [])


def widths(bench):
    """Nothing is wider than the page at each width, but what scrolls by itself; and the bytes are in view as a whole."""
    with bench.page(width=WIDTHS[0]) as page:
        same("the width before a program", page.run("document.documentElement.scrollWidth"), WIDTHS[0])
    for width in WIDTHS:
        with opened(bench, width=width) as page:
            for name in TABS:
                bench.tab(page, name)
                same(f"the width at {width}, {name}", page.run("document.documentElement.scrollWidth"), width)
            same(f"bytes beyond their part at {width}", page.run("(({ scrollWidth, clientWidth }) => scrollWidth - clientWidth)"
                                                                 "(document.getElementById('bytes'))"), 0)


def source_lines(bench):
    """The source line of each instruction is the one that addr2line tells."""
    tool = BINUTILS + "addr2line"
    for name in ("station", "kinds", "boot"):
        with bench.open(name) as page:
            told = page.run("""replaycheck.opened.program.elf.functions.flatMap((it) => Array.from({ length: Math.floor(it.size / 4) },
              (_, i) => [it.address + 4 * i, replaycheck.opened.lineOf(it.address + 4 * i)]))""")
        path = TOP / "examples/firmware" / f"{name}.elf"
        ran = subprocess.run([tool, "-e", str(path), *(hex(at) for at, _ in told)], capture_output=True, text=True, check=True)
        want = [re.sub(r" \(discriminator.*", "", it).rpartition("/")[2] for it in ran.stdout.splitlines()]
        wrong = [(hex(at), line, it) for (at, line), it in zip(told, want) if it[-1].isdigit() and not it.endswith(":0") and line != it]
        expect(len(told) > 100 and len(wrong) * 200 <= len(told), f"{name}: {len(wrong)} of {len(told)} lines: {wrong[:5]}")


# A program of lines with each of its operations, which no assembler for RISC-V uses all of, and what it says of addresses.
LINE_PROGRAM = bytes([0, 5, 2, 0, 0, 1, 0, 3, 9, 1, 76, 8, 19, 2, 11, 4, 2, 3, 0x7F, 1, 9, 16, 0, 0, 1, 1])
LINES_TOLD = {0xFFFF: None, 0x10000: "a.c:10", 0x10003: "a.c:10", 0x10004: "a.c:12", 0x10014: "a.c:12", 0x10015: "a.c:13",
              0x10020: "b.h:12", 0x1002F: "b.h:12", 0x10030: None}


def line_operations(bench):
    """Each operation of a program of lines, by one that was made by hand; and that a damaged one ends."""
    head = bytes([1, 1, 0xFB, 14, 13, 0, 1, 1, 1, 1, 0, 0, 0, 1, 0, 0, 1, 0]) + b"a.c\0\0\0\0sub/b.h\0\0\0\0\0"
    unit = struct.pack("<HI", 3, len(head)) + head + LINE_PROGRAM
    content = struct.pack("<I", len(unit)) + unit
    with bench.page() as page:
        def told(text):
            return page.run("""(async (bytes, addresses) => {
              const { Elf } = await import('./debuginfo/elf.js'), { sourceLines } = await import('./debuginfo/lines.js');
              const elf = new Elf(Uint8Array.from(bytes));
              elf.sections = [{ name: '.debug_line', begin: 0, size: bytes.length }];
              return addresses.map(sourceLines(elf)); })""" + f"({json.dumps(list(text))}, {json.dumps(list(LINES_TOLD))})")
        same("lines", dict(zip(LINES_TOLD, told(content))), LINES_TOLD)
        for at in range(len(content)):
            told(content[:at])
            told(content[:at] + bytes([content[at] ^ 0x80]) + content[at + 1:])


def instructions(bench):
    """Each instruction is the one that objdump tells, in its words without aliases."""
    tool = BINUTILS + "objdump"
    for name in ("station", "kinds", "boot"):
        with bench.open(name) as page:
            told = dict(page.run("""(async () => {
              const { disassembled } = await import('./riscv/instructions.js'), { elf } = replaycheck.opened.program;
              return elf.functions.flatMap((it) => Array.from({ length: Math.floor(it.size / 4) }, (_, i) => it.address + 4 * i))
                .map((at) => [at, disassembled(elf.loaded(at), at)]); })()"""))
        path = TOP / "examples/firmware" / f"{name}.elf"
        ran = subprocess.run([tool, "-d", "-M", "no-aliases", str(path)], capture_output=True, text=True, check=True)
        rows = re.findall(r"^ +([0-9a-f]+):\t[0-9a-f]{8} +\t([^\t\n]+)(?:\t([^\n#<]*))?", ran.stdout, re.M)
        wrong = []
        for at, instruction, fields in rows:
            got = told.get(int(at, 16))
            if got is not None and plain(got) != plain(f"{instruction} {fields}".strip()):
                wrong.append((at, got, f"{instruction} {fields}"))
        expect(len(rows) > 100, f"{len(rows)} rows alone")
        same(name, wrong[:5], [])


OTHER_NAMES = {"nop": lambda _: ("addi", ["zero", "zero", "0"]), "ret": lambda _: ("jalr", ["zero", "0(ra)"]),
               "fence": lambda _: ("fence", []), "li": lambda it: ("addi", [it[0], "zero", it[1]]),
               "mv": lambda it: ("addi", [*it, "0"]), "j": lambda it: ("jal", ["zero", *it]),
               "jal": lambda it: ("jal", it if len(it) == 2 else ["ra", *it])}
JUMPS = {"jal", "j", "beq", "bne", "blt", "bge", "bltu", "bgeu"}


def number_of(text, is_place):
    """A number in one form; objdump has places without 0x."""
    if re.fullmatch(r"-?(0x[0-9a-f]+|[0-9]+)", text) and not (is_place and not text.startswith("0x")):
        return str(int(text, 0))
    return str(int(text, 16)) if is_place else text


def plain(text):
    """An instruction without the assembler's other names for it, and with its numbers in one form."""
    name, _, fields = text.partition(" ")
    parts = [it for it in fields.strip().split(",") if it]
    parts = [number_of(it, name in JUMPS and it is parts[-1]) for it in parts]
    name, parts = OTHER_NAMES.get(name, lambda it: (name, it))(parts)
    return f"{name} {','.join(parts)}"


def picture_file(bench, path):
    """Writes the picture of docs/manual/page.md: what a page begins with, once both runs are counted."""
    with bench.page("", width=1280, height=2000) as page:
        page.run("replaycheck.opening.choose('station', ['input 1 8'])")
        page.until(f"{SWEPT} && document.getElementById('counted').textContent.endsWith('break it')", 120)
        page.until("['error', 'end'].every((kind) => replaycheck.steps.landmarks.some((it) => it.kinds.includes(kind)))")
        page.run("document.activeElement.blur()")
        below = page.run("document.getElementById('main').getBoundingClientRect().bottom + scrollY")
        path.write_bytes(page.picture(below, 0.7))


def has_binutils():
    return all(shutil.which(BINUTILS + it) for it in ("addr2line", "objdump"))
