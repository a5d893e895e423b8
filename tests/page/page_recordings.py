"""What test-page does with recordings of sweeps, which `replaycheck explore --html` writes: opens them in a browser, from disk."""
import json
import os
import pathlib
import subprocess
import sys

import browser
import firefox
from checkout import TOP
from guest_files import ENTRY, elf
from page_bench import expect, same
from replaycheck.guest.assembly import assemble
from replaycheck.recording.front import linked

PACKET = ["packet.elf", "--input=packet.input", "--values=flips", "--step=4096"]
MARKUP = "<img/src=x/onerror=document.title=7>"
READY = "document.getElementById('verdict').textContent !== '' && document.documentElement.className === 'scripted'"
FITS = "document.documentElement.scrollWidth <= innerWidth"


def recorded(program, folder, words, name):
    """Writes a recording, and returns its address."""
    words = [str(TOP / "cli/bin/replaycheck-explore"), *words, f"--html={name}"]
    done = subprocess.run(words, cwd=folder, env={**os.environ, "REPLAYCHECK": program}, capture_output=True, text=True, check=False)
    expect(done.returncode < 2, f"{words}: {done.stderr}")
    return (folder / name).as_uri()


def shown(page):
    """What is shown of an edit: the headline, the report and the output."""
    return [page.text(it) for it in ("verdict", "report", "output")]


def run_of(program, folder, line):
    """The report that `run` prints for an input with a byte changed."""
    given, (_, at, value) = bytearray((folder / "packet.input").read_bytes()), line.split(" ")
    given[int(at)] = int(value)
    (folder / "changed.input").write_bytes(given)
    words = [program, "run", "packet.elf", "--step=4096", "--input=changed.input"]
    return subprocess.run(words, cwd=folder, capture_output=True, text=True, check=False).stdout.rstrip("\n")


def ways_to_an_edit(program, folder, page):
    """A link, the address, a typed line, a click and a key lead to an edit; its report is that of `run`."""
    line = "input 0 11"
    same("what it opens with", shown(page)[0], f"{line}: Invalid read of size 1 in total, packet.s:29")
    same("its report", page.text("report"), run_of(program, folder, line))
    for label, way in (("a link", "document.querySelectorAll('a.show')[1].click()"), ("the address", "location.hash = '#input+1+0'")):
        page.run(way)
        page.until("document.getElementById('line').value === 'input 1 0'" if label == "the address" else READY)
        same(f"the report by {label}", page.text("report"), run_of(program, folder, page.run("document.getElementById('line').value")))
    for typed, told in (("input 7 1", "input 7 1: "), ("", "As recorded: no error or leak")):
        page.set("line", typed)
        page.click_on("#bar button")
        page.until(f"document.getElementById('verdict').textContent.startsWith({json.dumps(told)})", 5)
    page.set("line", "input 99 1")
    page.click_on("#bar button")
    same("a line that it doesn't have", page.text("problem"), "This file doesn’t have input 99 1")
    page.run("location.hash = '#input+0+11'")
    page.until("document.getElementById('verdict').textContent.startsWith('input 0 11: Invalid')", 5)
    page.focus("picture")
    page.press("ArrowRight")
    same("a key", page.run("document.getElementById('line').value"), "input 1 9")
    page.run("history.back()")
    page.until("document.getElementById('line').value === 'input 0 11'", 5)
    left, top = page.run("(({ left, top }) => [left, top])(document.getElementById('picture').getBoundingClientRect())")
    page.click(left + 100, top + 60)
    same("a click", page.run("location.hash").startswith("#input+"), True)
    same("what the scripts complain of", page.complaints(), [])


def without_scripts(page, address):
    """Without a script there are the headline and the errors by their places, and nothing that needs one."""
    page.call("Emulation.setScriptExecutionDisabled", value=True)
    page.call("Page.navigate", url=address)
    page.until("document.readyState === 'complete'")
    seen = page.run("[...document.querySelectorAll('section, form, .show')].filter((it) => it.checkVisibility()).map((it) => it.id)")
    same("what is seen without a script", seen, ["outcomes"])
    same("the headline", page.text("verdict"), "5 of 64 edits add an error, a leak or a stop")
    expect("Invalid read of size 1 total, packet.s:29" in page.text("outcomes"), page.text("outcomes"))


def with_markup(program, folder, tab):
    """A name that would be an element does nothing."""
    words, call = assemble("nop\nli a0, 0\nli a7, 93\necall\nlb a1, 0(zero)\njalr zero, 0(ra)"), assemble("jal ra, .+16")[0]
    name = f"{MARKUP.replace('/', ' ')}.elf"
    (folder / name).write_bytes(elf(words, symbols=[("main", ENTRY, 16), (MARKUP, ENTRY + 16, 8)]))
    address = recorded(program, folder, ["--words=0x10000", f"--words-values={call}", "--step=900", name], "markup.html")
    with tab.page(address, ready=READY) as page:
        expect(MARKUP in page.text("verdict") and MARKUP in page.text("report"), shown(page))
        same("elements of names", page.run("[document.images.length, document.title === '7']"), [0, False])
        same("what the scripts complain of, of names", page.complaints(), [])


def opened(program, folder):
    """A recording in Chromium, and in Firefox if it is there."""
    for name in ("packet.elf", "packet.input"):
        (folder / name).write_bytes((TOP / "examples" / name).read_bytes())
    address = recorded(program, folder, PACKET, "sweep.html")
    words = ["packet.elf", "--input=packet.input", "--at=0..9", "--faults=skip,zero", "--step=4096"]
    steps = recorded(program, folder, words, "steps.html")
    (folder / "index.html").write_bytes(linked((folder / "sweep.html").read_bytes()))
    with browser.Browser(browser.find()) as tab:
        for width in (360, 390, 768, 1280, 1920):
            for dark in (False, True):
                for one in (address, steps):
                    with tab.page(one, width, 800, dark, READY) as page:
                        expect(page.run(FITS), f"{one} is wider than {width} pixels")
        with tab.page(address, ready=READY) as page:
            ways_to_an_edit(program, folder, page)
            without_scripts(page, address)
        with tab.page((folder / "index.html").as_uri(), ready=READY) as page:
            found = page.run("[...document.querySelectorAll('#own a')].map((it) => [it.textContent, it.href])")
            same("the link of a front page", found, [["Now your own ELF", (folder / "replaycheck.html").as_uri()]])
        with_markup(program, folder, tab)
    if firefox.find():
        with firefox.Firefox(firefox.find()) as page:
            page.open(address, READY)
            same("in Firefox", page.text("report"), run_of(program, folder, "input 0 11"))


if __name__ == "__main__":
    opened(os.path.realpath(sys.argv[1]), pathlib.Path(sys.argv[2]))
