"""The cases of test-page about keys, fingers, visits and another browser: one stop of Tab a part, a magnifier, packed links, work that
outlives a reload, and Firefox."""
import base64
import json
import time
import zlib

import firefox
from page_bench import EXAMPLES, SWEPT, expect, same, words_of
from page_firsts import broken
from page_pictures import place_of
from checkout import TOP

STATION = words_of("station")
CONTROL = 2  # of a key that is pressed

# ---- keys

# Parts that are one stop of the Tab key, with keys from their first thing on and the thing that then has the focus.
STOPS = [
    ("examples", ["ArrowRight", "ArrowRight"], "kinds"), ("legend-rows", ["ArrowDown", "ArrowRight"], "Invalid write"),
    ("chips", ["ArrowDown"], "✕"), ("code-rows", ["ArrowDown", "ArrowRight"], "word…"), ("registers", ["ArrowDown", "ArrowDown"], "gp"),
    ("bits", [], ""), ("memory-rows", [], ""), ("report", ["ArrowDown"], "by "), ("landmarks", ["ArrowRight"], ""),
    ("calls", ["ArrowDown"], "by "), ("block-rows", ["ArrowDown"], "0x4000"),
]


def tab_stops(bench):
    """Each table is one stop of the Tab key, and arrow keys move within it."""
    with bench.open(words="") as page:
        page.run("replaycheck.use('goto 600\\ninput 1 8\\ninput append 7')")
        bench.settle(page)
        page.run("[...document.querySelectorAll('details')].forEach((it) => { it.open = true; })")
        page.until("replaycheck.machine.step === 600 && replaycheck.steps.landmarks.some((it) => it.kinds.includes('end'))", 20)
        page.until(f"{SWEPT} && !replaycheck.sweeps.isStale", 60)
        for part, keys, want in STOPS:
            page.run(f"""(() => {{ const panel = document.getElementById('{part}').closest('[role=tabpanel]');
              if (panel) replaycheck.tabs.open(panel.id.replace('-panel', '')); }})()""")
            stops = page.run(f"""[...document.querySelectorAll('#{part} :is(button, input, summary, [tabindex])')]
              .filter((it) => it.tabIndex === 0 && !it.disabled).length""")
            same(f"stops in {part}", stops, 1)
            page.run(f"document.querySelector('#{part} [tabindex=\"0\"]').focus()")
            page.press("Home", modifiers=CONTROL)
            page.press(*keys)
            told = page.run(f"document.querySelector('#{part}').contains(document.activeElement) && document.activeElement.textContent")
            expect(told is not False and want in told, f"{keys} in {part} lead to {told!r}")
        page.run("document.getElementById('bytes').focus()")
        page.press("Tab")
        same("what comes after the bytes", page.run("document.activeElement.id"), "picture")
        stops = page.run("""[...document.querySelectorAll('a, button, input, select, textarea, summary, [tabindex]')]
          .filter((it) => it.tabIndex === 0 && !it.disabled && it.checkVisibility()).length""")
        expect(stops < 96, f"the page has {stops} stops with all of it open")


# ---- fingers


def touch(page, kind, *places):
    page.call("Input.dispatchTouchEvent", type=kind, touchPoints=[{"x": x, "y": y} for x, y in places])


def lens(bench):
    """A finger that is held on the picture sees its cells large, and makes no edit until a button is pressed; one that moves on scrolls."""
    with bench.open(words="", width=360, height=800) as page:
        page.call("Emulation.setTouchEmulationEnabled", enabled=True)
        page.until(SWEPT, 120)
        page.run("document.getElementById('picture').scrollIntoView({ block: 'center' })")
        hidden = "document.getElementById('lens').hidden"
        touch(page, "touchStart", place_of(page, 20, 128))
        page.until(f"!{hidden}", 5)
        touch(page, "touchMove", place_of(page, 15, 250))
        touch(page, "touchMove", place_of(page, 15, 255))
        box = page.run("(({ left, right, bottom }) => [left, right, bottom])(document.getElementById('lens').getBoundingClientRect())")
        x, y = place_of(page, 15, 255)
        expect(box[0] >= 0 and box[1] <= 360 and box[2] < y, f"the magnifier is at {box}, and the finger at {x}, {y}")
        middle = page.run("""(() => { const it = document.getElementById('lens'), at = [it.width / 2, it.height / 2].map(Math.floor);
          return [...it.getContext('2d').getImageData(...at, 1, 1).data].slice(0, 3); })()""")
        colour = page.run("import('./sweep/colours.js').then(({ COLOURS }) => COLOURS.undefined[0])")
        same("the cell in its middle", middle, [int(colour[at:at + 2], 16) for at in (1, 3, 5)])
        touch(page, "touchEnd")
        same("the magnifier of no finger", page.run(hidden), True)
        page.run("document.getElementById('picture').addEventListener('click', () => { globalThis.tapped = true; })")
        touch(page, "touchStart", (x, y))
        touch(page, "touchEnd")
        page.until("globalThis.tapped", 5)
        same("edits of a finger", page.run("replaycheck.scenario.lines"), [])
        same("the button", page.text("picture-make"), "input 15 255")
        page.click_on("#picture-make")
        bench.same_report(page, STATION, "an edit by the button")
        same("edits of the button", page.run("replaycheck.scenario.lines"), ["input 15 255"])


# ---- links


def packed(text):
    made = zlib.compressobj(9, zlib.DEFLATED, -15)
    return base64.urlsafe_b64encode(made.compress(text.encode()) + made.flush()).decode().rstrip("=")


# Notes each change of what a screen reader says by itself.
SPOKEN = """(() => { globalThis.spoken = [];
  for (const it of document.querySelectorAll('[aria-live], [role=status], [role=alert]')) {
    let was = it.textContent;
    new MutationObserver(() => {
      if (it.textContent !== was && it.getAttribute('aria-live') !== 'off') spoken.push([it.id, it.textContent]);
      was = it.textContent; })
      .observe(it, { childList: true, characterData: true, subtree: true }); } })()"""
MOST_SPOKEN = 4


def spoken(bench):
    """One typed byte has a screen reader say few things: how the run ends, and what the byte is."""
    with bench.open(words="?workers=2") as page:
        page.until(f"{SWEPT} && !replaycheck.sweeps.isStale", 120)
        page.until("replaycheck.strip.plain?.isDone && replaycheck.machine.rested", 60)
        page.run(SPOKEN)
        page.focus("bytes")
        page.press("ArrowRight")
        page.until("document.getElementById('byte-told').textContent.startsWith('byte 1')", 10)
        page.run("spoken.length = 0")
        page.press("0", "8")
        bench.settle(page)
        page.until(f"replaycheck.scenario.lines.length === 1 && {SWEPT} && !replaycheck.sweeps.isStale", 120)
        page.until("replaycheck.strip.edited?.isDone", 60)
        told = page.run("spoken")
        expect(len(told) <= MOST_SPOKEN, f"{len(told)} things are said: {told}")
        for it in ("verdict", "byte-told"):
            expect(any(where == it for where, _ in told), f"nothing is said of {it}: {told}")


def packed_links(bench):
    """A long link is packed, and leads to the same lines; one that isn't packed is read, and the page says so of a damaged one."""
    lines = [f"input append {at % 256}" for at in range(1500)]
    with bench.open() as page:
        page.run(f"replaycheck.use({json.dumps(chr(10).join(lines[:5]))})")
        bench.settle(page)
        expect(page.run("replaycheck.edits.link()").count("input+append") == 5, "a short link is packed")
        page.run(f"replaycheck.use({json.dumps(chr(10).join(lines))})")
        bench.settle(page)
        link = page.run("replaycheck.edits.link()")
        expect("#packed=" in link and len(link) < 2000, f"a link of {len(link)} characters: {link[:80]}")
    with bench.page("?still" + link[link.index("#"):]) as page:
        page.until("replaycheck.scenario?.lines.length === 1500")
        same("the lines of a packed link", page.run("replaycheck.lines"), lines)
    whole = link[link.index("#"):]
    for label, hash_, told in (("of tools", f"#packed={packed('example=station&lines=input+1+9')}", None), ("cut", whole[:60], "damaged"),
                               ("with other letters", whole[:50] + "!!" + whole[52:], "damaged"), ("of nothing", "#packed=", "damaged"),
                               ("without an end", f"#packed={packed('example=' + 'x' * (9 << 20))}", "damaged")):
        with bench.page("?still" + hash_) as page:
            if told:
                page.until("document.getElementById('notice').textContent")
                expect(told in page.text("notice"), f"a link {label}: {page.text('notice')!r}")
            else:
                page.until("replaycheck.shown")
                bench.settle(page)
                same(f"a link {label}", page.run("replaycheck.scenario.lines"), ["input 1 9"])
            same(f"complaints of a link {label}", page.complaints(), [])


# ---- visits


def typed_input(bench):
    """An input that is typed as digits or as text is an edit, also of a program that has none; what is no input is refused."""
    with bench.open() as page:
        given = list((TOP / "examples/firmware/station.input").read_bytes())
        digits = " ".join(f"{it:02x}" for it in given[:-1])
        for label, form, text, wanted in (("digits", "hex", "0x02,0x" + digits[3:] + "\n", ["input cut", "input 0 2"]),
                                          ("the same", "hex", digits + " ff", []), ("nothing", "hex", "", ["input cut"] * len(given)),
                                          ("text", "text", "a\u00fc", ["input cut"] * (len(given) - 3) + [
                                              "input 0 97", "input 1 195", "input 2 188"])):
            page.set("typed-as", form)
            page.set("typed", text)
            page.click_on("#typed-form button")
            bench.same_report(page, STATION, f"typed {label}")
            same(f"typed {label}", page.run("replaycheck.scenario.lines"), wanted)
        for text, said in (("012", "These are no bytes"), ("0g", "These are no bytes"),
                           ("00" * 4097, "4,097 bytes, and 4,096 can be typed")):
            page.set("typed-as", "hex")
            page.set("typed", text)
            page.click_on("#typed-form button")
            expect(said in page.text("notice"), f"{text[:9]}: {page.text('notice')!r}")
        bench.give(page, {"program": (TOP / "examples/packet.elf").read_bytes()})
        bench.settle(page)
        page.set("typed", "0b 01")
        page.click_on("#typed-form button")
        bench.same_report(page, [str(TOP / "examples/packet.elf")], "typed for a program without an input")
        same("its lines", page.run("replaycheck.scenario.lines"), ["input append 11", "input append 1"])


STORED, NOTICE = "localStorage.getItem('replaycheck')", "document.getElementById('notice').textContent"


def open_own(bench, page, *roles):
    """Opens an example's files as one's own."""
    files = {role: (TOP / "examples" / EXAMPLES["packet"][role]).read_bytes() for role in roles}
    bench.give(page, files, name="secret.elf")


def first_visit(bench, page):
    page.until("replaycheck.shown")
    bench.settle(page)
    same("what is kept of the first screen", page.run(STORED), None)
    page.run("replaycheck.use('input 1 9\\nmark 55 0x20011 2 undefined')")
    bench.settle(page)
    page.until(f"({STORED} ?? '') !== ''")


def second_visit(bench, page):
    page.until("replaycheck.scenario?.lines.length > 0")
    bench.settle(page)
    same("the next visit", page.run("replaycheck.scenario.lines"), ["mark 55 0x00020011 2 undefined", "input 1 9"])
    expect(not page.run("document.getElementById('kept-told').hidden"), "it isn't told that this was kept")
    page.click_on("#start-over")
    page.until("replaycheck.scenario?.lines.join() === 'input 1 8'")
    same("what is kept then", page.run(STORED), None)
    open_own(bench, page, "program", "input")
    bench.settle(page)
    page.run("replaycheck.use('input 0 9')")
    bench.settle(page)
    page.until(f"{STORED}?.includes('input+0+9')", 5)
    same("what is kept of files", page.run(STORED), "program=secret.elf&input=input.bin&lines=input+0+9")


def visit_with_own_files(bench, page):
    page.until(f"{NOTICE}.includes('Until then the example “station” is shown.')")
    bench.settle(page)
    same("what is shown meanwhile", page.run("replaycheck.scenario.lines"), ["input 1 8"])
    page.run("replaycheck.use('input 2 9')")
    bench.same_report(page, STATION, "an edit meanwhile")
    time.sleep(1)
    same("what is kept meanwhile", page.run(STORED), "program=secret.elf&input=input.bin&lines=input+0+9")
    open_own(bench, page, "input")
    expect("“input.bin” will be used with the next program" in page.text("notice"), f"the input first: {page.text('notice')!r}")
    open_own(bench, page, "program")
    page.until("replaycheck.scenario?.lines.join() === 'input 0 9'")
    bench.settle(page)
    page.call("Page.reload")
    page.until(f"document.readyState === 'complete' && globalThis.replaycheck && {NOTICE}")
    for part in ("“secret.elf” and “input.bin”. Drop these files here", "1 line of the scenario is used"):
        expect(part in page.text("notice"), f"it says {page.text('notice')!r}")
    open_own(bench, page, "program")
    bench.settle(page)
    expect("Still missing is “input.bin”" in page.text("notice"), f"it says {page.text('notice')!r}")
    page.call("Page.reload")
    page.until(f"document.readyState === 'complete' && globalThis.replaycheck && {NOTICE}")
    open_own(bench, page, "program", "input")
    page.until("replaycheck.scenario?.lines.length > 0")
    bench.settle(page)
    same("the lines over the files", page.run("replaycheck.scenario.lines"), ["input 0 9"])
    page.click_on("#forget")
    same("what is kept after it was thrown away", page.run(STORED), None)


def last_visit(_, page):
    page.until("replaycheck.scenario?.lines.join() === 'input 1 8'")
    same("what is kept after that visit", page.run(STORED), None)


def kept_from_visit_to_visit(bench):
    """The scenario is there again at the next visit, until it is thrown away. Of a private file its name is kept and nothing else, and
    the page says which file to open."""
    with bench.page() as page:
        page.run("localStorage.clear()")
    for visit in (first_visit, second_visit, visit_with_own_files, last_visit):
        with bench.browser.page(bench.address + "?still") as page:
            visit(bench, page)


# ---- Firefox


def in_firefox(bench):
    """The page in Firefox: the first screen and its counts, an edit, a packed link, and the page of one file."""
    with firefox.Firefox(firefox.find()) as page:
        page.open(bench.address)
        page.until("replaycheck.shown")
        bench.same_report(page, STATION, "the first screen in Firefox")
        page.until(f"{SWEPT} && document.getElementById('counted').textContent.endsWith('break it')")
        total, new = broken(bench, STATION, [], page.run("replaycheck.step"))
        same("its count", page.text("counted"), f"Of the unedited run: {new} of {total:,} one-byte edits break it")
        page.run("replaycheck.use('input 37 5')")
        bench.same_report(page, STATION, "an edit in Firefox")
        page.until("document.getElementById('certified').title.startsWith('not clean: first use at step 684')", 10)
        page.run("replaycheck.use('input 37 5\\ngoto 676')")
        page.until("document.getElementById('variable-rows').textContent.includes('undefined bits 0xff')", 10)
        page.until("document.querySelector('#source-rows .now .text')?.textContent === '        show(&station, unit);'", 10)
        page.open(f"{bench.address}?still#packed={packed('example=station&lines=input+1+9')}")
        page.until("replaycheck.scenario?.lines.length > 0")
        bench.same_report(page, STATION, "a packed link in Firefox")
        same("its lines", page.run("replaycheck.scenario.lines"), ["input 1 9"])
        page.open(bench.file)
        page.until("replaycheck.shown")
        bench.same_report(page, STATION, "the page of one file in Firefox")
