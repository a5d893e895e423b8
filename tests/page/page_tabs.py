"""The cases of test-page about the tabs below the first screen, and about a line, its code and its cells, which are marked together."""
import json

from page_bench import SWEPT, expect, same, words_of

NAMES = ["report", "code", "calls", "variables", "registers", "memory", "blocks", "options"]
STATION = words_of("station")
CONTROL = 2  # of a key that is pressed
TOLD = """[replaycheck.tabs.now, [...document.querySelectorAll('#tabs [aria-selected=true]')].map((it) => it.id),
  [...document.querySelectorAll('[role=tabpanel]')].filter((it) => it.checkVisibility()).map((it) => it.id),
  [...document.querySelectorAll('#tabs [role=tab]')].filter((it) => it.tabIndex === 0).map((it) => it.id)]"""


def is_open(page, name, label):
    """Whether a tab is the only one that is open, and the one at which the Tab key stops."""
    same(label, page.run(TOLD), [name, [f"{name}-tab"], [f"{name}-panel"], [f"{name}-tab"]])


# Keys from the first tab on, and the tab that is open then.
KEYS = [(["ArrowRight"], "code"), (["ArrowRight", "ArrowRight"], "variables"), (["ArrowLeft"], "calls"), (["End"], "options"),
        (["ArrowRight"], "report"), (["ArrowLeft"], "options"), (["Home"], "report"), (["ArrowDown"], "report")]


def tabs_by_keys(bench):
    """Arrow keys, Home and End go from tab to tab and round, and open each; the Tab key leads on into what it has."""
    with bench.open() as page:
        page.focus("report-tab")
        for keys, name in KEYS:
            page.press(*keys)
            is_open(page, name, f"{keys} open {name}")
            same(f"what has the focus after {keys}", page.run("document.activeElement.id"), f"{name}-tab")
        page.press("ArrowRight", modifiers=CONTROL)
        is_open(page, "report", "an arrow key with Control")
        page.press("Tab")
        expect(page.run("document.getElementById('report-panel').contains(document.activeElement)"), "Tab leads past what the tab has")
        same("each tab and its panel", page.run("""[...document.querySelectorAll('#tabs [role=tab]')].map((it) => {
          const panel = document.getElementById(it.getAttribute('aria-controls'));
          return panel.getAttribute('role') === 'tabpanel' && panel.getAttribute('aria-labelledby') === it.id && it.id; })"""),
             [f"{name}-tab" for name in NAMES])
        same("complaints", page.complaints(), [])


def tabs_kept(bench):
    """The tab that is open is there at the next visit; a link opens its own, the first one if it names none, or one that isn't there."""
    with bench.page() as page:
        page.run("localStorage.clear()")
    with bench.browser.page(bench.address + "?still") as page:
        page.until("replaycheck.shown")
        page.click_on("#memory-tab")
        page.until("location.hash.endsWith('&tab=memory')", 10)
        link = page.run("replaycheck.edits.link()")
    with bench.browser.page(bench.address + "?still") as page:
        page.until("replaycheck.shown")
        is_open(page, "memory", "the next visit")
        page.run("replaycheck.opening.forget(false)")
    with bench.browser.page(bench.address + "?still") as page:
        page.until("replaycheck.shown")
        is_open(page, "report", "a visit after all was thrown away")
        page.click_on("#code-tab")
    for label, hash_, name in (("a link", link[link.index("#"):], "memory"), ("a link without a tab", "#example=station", "report"),
                               ("a link with no such tab", "#example=station&tab=x", "report")):
        with bench.page("?still" + hash_) as page:
            page.until("replaycheck.shown")
            is_open(page, name, label)
            page.run("localStorage.clear()")


# What leads into a tab: what is clicked, and the tab that is open then.
LEADING = [("a frame of the report", "#report .frames button", "code"), ("a line of the source", "#source-rows button", "code"),
           ("a frame of the calls", "#calls button", "code"), ("where the run is", "#pc", "code"),
           ("a variable", "#variable-rows button", "memory"), ("a block", "#block-show", "memory")]


def tabs_led_to(bench):
    """What leads to code or to memory opens its tab, with the row in view; another step opens none."""
    with bench.open() as page:
        page.run("replaycheck.use('input 1 8\\ngoto 676')")
        bench.settle(page)
        page.until("replaycheck.machine.rested && document.querySelector('#variable-rows button') !== null", 20)
        for label, selector, name in LEADING:
            page.run("replaycheck.tabs.open('options')")
            page.click_on(selector)
            is_open(page, name, label)
            if name == "code":
                same(f"{label}: the row in view", page.run("""(() => { const row = document.querySelector('#code tr.at'),
                  box = document.getElementById('code').getBoundingClientRect(), { top, bottom } = row.getBoundingClientRect();
                  return box.top <= top && bottom <= box.bottom; })()"""), True)
        page.run("replaycheck.tabs.open('calls')")
        page.run("replaycheck.go(100)")
        bench.settle(page)
        is_open(page, "calls", "another step")


# What can't be seen while nothing calls for it, each for a reason that is no matter of widths.
NOT_ALWAYS = {"lens", "picture", "counted", "certified", "bug-step", "stop-report", "start-over", "limit-more", "picture-make",
              "asked-further", "asked-back", "byte-wrote", "byte-since"}


def nothing_lost(bench):
    """At each width all that can be used can be seen, in one of the tabs."""
    for width in (360, 768, 1280, 1920):
        with bench.open(width=width) as page:
            page.run("replaycheck.use('input 1 8\\ngoto 184')")
            bench.settle(page)
            page.until("replaycheck.machine.rested", 20)
            page.run("[...document.querySelectorAll('details')].forEach((it) => { it.open = true; })")
            lost = page.run("""(() => { const names = [...document.querySelectorAll(':is(button, input, select, textarea, canvas)[id]')]
              .map((it) => it.id), seen = new Set();
              for (const tab of %s) { replaycheck.tabs.open(tab);
                for (const it of names) { const found = document.getElementById(it), { width, height } = found.getBoundingClientRect();
                  if (found.checkVisibility() && width && height) seen.add(it); } }
              return names.filter((it) => !seen.has(it)); })()""" % json.dumps(NAMES))
            same(f"what can't be seen at {width}", [name for name in lost if name not in NOT_ALWAYS], [])


# ---- what is linked

LINKED = """[[...document.querySelectorAll('#source-rows tr.linked')].map((it) => it.dataset.line),
  [...new Set([...document.querySelectorAll('#code-rows tr.linked td:nth-child(4)')].map((it) => it.textContent))],
  replaycheck.sweeps.picture.legend.pointed]"""
# What is pointed at, or has the focus: events and a selector; and the line that is marked, and whether the picture shows its outcomes only.
POINTED = [("a line", "pointerover", "#source-rows tr[data-line='34']", 34, True), ("nothing", "pointerleave", "#source-rows", None, False),
           ("the number of a line", "focusin", "#source-rows tr[data-line='34'] button", 34, True),
           ("no number", "focusout", "#source-rows tr[data-line='34'] button", None, False),
           ("a line without outcomes", "pointerover", "#source-rows tr[data-line='30']", 30, False),
           ("an instruction", "pointerover", "#code-rows tr.at", 34, True), ("no instruction", "pointerleave", "#code-rows", None, False),
           ("an outcome", "pointerover", "#legend-rows tr:first-child", 34, True),
           ("no outcome", "pointerleave", "#legend-rows", None, False)]


def linked_rows(bench):
    """A line of the source, its instructions and the outcomes whose worst new error is there are marked together, whichever of them one
    points at or has the focus in."""
    with bench.open(words="?workers=2") as page:
        page.run("replaycheck.use('input 1 8')")
        page.until(f"{SWEPT} && replaycheck.sweeps.isRecorded && document.querySelector('#code-rows tr.at') !== null", 120)
        page.until("document.querySelector('#source-rows tr.message') !== null", 20)
        for label, event, selector, line, shows in POINTED:
            bubbles = "false" if event == "pointerleave" else "true"
            page.run(f"document.querySelector({json.dumps(selector)})"
                     f".dispatchEvent(new {'PointerEvent' if 'pointer' in event else 'FocusEvent'}('{event}', {{ bubbles: {bubbles} }}))")
            lines, code, outcomes = page.run(LINKED)
            same(f"{label}: lines", {*lines}, {str(line)} if line else set())
            same(f"{label}: code", code, [f"station.c:{line}"] if line else [])
            same(f"{label}: the picture", outcomes is not None, shows)
            told = page.run("(replaycheck.sweeps.picture.legend.pointed ?? []).map((it) => replaycheck.sweeps.picture.outcomes.told(it))")
            expect(not shows or all("station.c:34" in text for text in told), f"{label}: it shows {told}")
        cell = "(() => { const { picture } = replaycheck.sweeps; picture.canvas.focus(); picture.here = { column: 1, row: 7 }; })()"
        page.run(cell)
        page.press("ArrowDown")
        same("a cell by keys", page.run(LINKED)[:2], [["34", "34"], ["station.c:34"]])
        page.run("document.activeElement.blur()")
        same("no cell", page.run(LINKED)[:2], [[], []])
