"""What the cases of test-page share: the page in a browser, and the program beside it."""
import base64
import json
import os
import subprocess
import sys

sys.dont_write_bytecode = True
sys.path[:0] = (os.path.realpath(f"{__file__}/../../../{it}") for it in ("tests/support", "build", "cli/python"))
from checkout import TOP  # noqa: E402
from guest_files import answered  # noqa: E402

EXAMPLES = {it["name"]: it for it in json.loads((TOP / "page" / "examples.json").read_text())}
ALTERING = {"set", "write", "flip", "skip"}
SETTLED = ("!replaycheck.isBusy && replaycheck.shown && replaycheck.shown.scenario === replaycheck.scenario"
           " && replaycheck.shown.step === replaycheck.step")
SWEPT = "replaycheck.sweeps.sweep?.swept.isWhole"


class Wrong(Exception):
    """What a case has found."""


def expect(is_so, told):
    if not is_so:
        raise Wrong(told)


def same(what, got, want):
    if got != want:
        raise Wrong(f"{what}: {str(got)[:900]!r}\n  and not {str(want)[:900]!r}")


def sweep_flips(page):
    """Has each bit of the input turned, which takes less time than all values."""
    page.set("sweep-values", "flips")
    page.click_on("#sweep")
    page.until(SWEPT, 120)


def words_of(example):
    """The files of an example, and its instruction set, as the program's words."""
    it = EXAMPLES[example]
    given = ["--input", str(TOP / "examples" / it["input"])] if "input" in it else []
    given += [f"--isa={it['isa']}"] if "isa" in it else []
    return [str(TOP / "examples" / it["program"]), *given]


def table_in(text):
    """What a sweep's table has: the run's own outcome, and the outcome of each edit: by its place and value, or of a step by its line."""
    outcomes, edits, told = [], {}, None
    for line in text.splitlines():
        first, *fields = line.split(" ")
        if first == "outcome" and len(fields) == 1:
            outcomes.append([])
            told = outcomes[-1]
        elif first in ("input", "patch", "patch16") and len(fields) == 3:
            edits[int(fields[0], 0), int(fields[1], 0)] = int(fields[2])
            told = None
        elif first in ALTERING and fields and fields[0].isdigit():
            edits[" ".join([first, *fields[:-1]])] = int(fields[-1])
            told = None
        elif first in ("unedited", "tally", "end"):
            told = None
        elif told is not None:
            told.append(line)
    texts = ["\n".join(it) for it in outcomes]
    return texts[0], {edit: texts[number] for edit, number in edits.items()}


class Bench:
    """The program, a browser, and where the page is: the address of the folder that is served, and what was built."""

    def __init__(self, program, browser, address, built):
        self.program, self.browser, self.address = program, browser, address
        self.folder, self.file = built / "page", (built / "replaycheck.html").as_uri()

    def has_halves(self):
        """Whether the program takes a `patch16` with the right fields."""
        return self.native(words_of("boot for rv32imc"), ["patch16 0x10000 1"]) != ["refused 2"]

    def native(self, words, lines):
        """The program's replies to lines: those of a session, unless one alters a step."""
        text = "".join(f"{line}\n" for line in lines)
        command = "look" if any(line.split(" ")[0] in ALTERING for line in lines) else "session"
        ran = subprocess.run([self.program, command, *words], input=text.encode(), capture_output=True)
        if ran.returncode:
            raise Wrong(f"the program ended with status {ran.returncode}: {ran.stderr.decode()}")
        return answered(ran.stdout.decode().splitlines())

    def table(self, words, *options):
        """The program's table of a sweep: the outcomes, and the outcome of each edit."""
        ran = subprocess.run([self.program, "sweep", *words, *options], capture_output=True, text=True, check=True)
        return table_in(ran.stdout)[1]

    def page(self, words="?still", **shape):
        """A page with nothing open and the first tab, or with what a link says."""
        page = self.browser.page(self.address + (words if "#" in words else f"{words or '?'}&empty"), **shape)
        if "#" not in words:
            self.tab(page, "report")
        return page

    def tab(self, page, name):
        """Opens a tab by its name."""
        page.run(f"replaycheck.tabs.open({json.dumps(name)})")

    def open(self, example="station", words="?still", **shape):
        """A page with an example, which sweeps nothing by itself where the words of its address don't say otherwise."""
        page = self.page(words, **shape)
        page.run(f"replaycheck.opening.choose({json.dumps(example)})")
        self.settle(page)
        return page

    def settle(self, page):
        page.until(SETTLED)

    def give(self, page, files, name="program.elf"):
        """Opens files as a user's: bytes by their roles."""
        told = {role: {"name": name if role == "program" else f"{role}.bin", "text": base64.b64encode(content).decode()}
                for role, content in files.items()}
        page.run("""(async (files) => {
          for (const it of Object.values(files)) it.bytes = Uint8Array.from(atob(it.text), (c) => c.charCodeAt(0));
          await replaycheck.opening.take(files); })""" + f"({json.dumps(told)})")

    def same_report(self, page, words, what):
        """Whether the page shows the report that the program writes after the same lines."""
        self.settle(page)
        lines = [it for it in page.run("replaycheck.scenario.lines")] + [f"goto {page.run('replaycheck.step')}", "report"]
        want = self.native(words, lines)
        refused = [line for line, reply in zip(lines, want) if reply.startswith("refused")]
        expect(not refused, f"{what}: the program refuses {refused}")
        same(what, page.text("report-text").rstrip("\n"), want[-1])
