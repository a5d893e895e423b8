"""What `replaycheck explore --html` writes, for test-explore: its reports beside those of `run` and of sessions, what it leaves out, and
names with markup."""
import base64
import hashlib
import html.parser
import json
import random
import re
import shlex
import shutil
import signal
import subprocess
import sys

from checkout import TOP
from coverage_cases import GCC, START, words_of
from explore_executed import looker
from explore_room import EXAMPLES, EXPLORE, PACKET
from explore_signals import ended_by
from guest_files import ENTRY, elf
from replaycheck.guest.assembly import assemble
from replaycheck.recording import file, runs

STATION = ["station.elf", "--input=station.input"]
BOOT = ["boot.elf", "--input=boot.input", "--step=1600"]
SHORT = ["boot-short.elf", "--isa=rv32imc", "--input=boot.input", "--step=1600"]
CHOSEN = 12  # of the edits of a file, by chance
# A name of a function, and one that ends the elements and the strings that it may be in.
MARKUP = "<img/src=x/onerror=alert(1)>"
ENDS = "</script><script>alert(1)</script><!--"
# The tool with other bounds of what a file has.
BOUNDED = f"""import runpy, sys
sys.path.insert(0, {str(TOP / "cli/python")!r})
from replaycheck.recording import runs
name, value = sys.argv[1].split("=")
setattr(runs, name, int(value))
sys.argv = [{EXPLORE!r}, *sys.argv[2:]]
runpy.run_path({EXPLORE!r}, run_name="__main__")
"""
NODE = "const read = require('fs').readFileSync; eval(read(process.argv[1], 'utf8') + ';globalThis.Recorded = Recorded;');\n" + """
const it = new Recorded(JSON.parse(read(0, 'utf8')));
const told = process.argv.slice(2).map((line) => it.find(line)).map((edit) => [it.line(edit), it.report(edit), it.output(edit)]);
process.stdout.write(JSON.stringify(told));
"""


class Page(html.parser.HTMLParser):
    """The elements of a page, its links, the texts of its scripts, and its data."""

    def __init__(self, text):
        super().__init__()
        self.tags, self.links, self.scripts, self.attributes, self.text, self.inside = [], [], [], [], "", ""
        self.feed(text)
        self.data = json.loads(self.scripts[0])

    def handle_starttag(self, tag, attrs):
        self.tags.append(tag)
        self.attributes += [(tag, *it) for it in attrs]
        self.links += [value for name, value in attrs if name == "href"]
        self.scripts += [""] * (tag == "script")
        self.inside = tag

    def handle_endtag(self, tag):
        self.inside = ""

    def handle_data(self, data):
        if self.inside == "script":
            self.scripts[-1] += data
        elif self.inside != "style":
            self.text += data

    @property
    def policy(self):
        return next(value for tag, name, value in self.attributes if tag == "meta" and name == "content" and "default-src" in value)

    def numbers(self, of):
        """The numbers of runs."""
        return [of[at] + i * of[at + 2] for at in range(0, len(of), 3) for i in range(of[at + 1])]

    def lines(self):
        """The line of each edit."""
        panels, forms = self.data["panels"], self.data["forms"]
        names = ("panel", "column", "form")
        for panel, column, form in list(zip(*(self.numbers(self.data["edits"][name]) for name in names)))[1:]:
            name = panels[panel]["columns"][column]
            yield forms[form].replace("{0}", name).replace("{1}", str(int(name) + 1) if name.isdigit() else "")

    def reports(self):
        """The report of each edit, the unedited run's first; None where it is left out."""
        texts = [None] + ["\n".join(self.data["lines"][at] for at in self.numbers(it)) + "\n" for it in self.data["reports"]]
        return [texts[it] for it in self.numbers(self.data["report"])]

    def outputs(self):
        whole = self.data["unedited"]
        texts = [None] + [whole[:before] + between + whole[len(whole) - after:] for before, after, between in self.data["outputs"]]
        return [it if it is None else it.encode("latin-1") for it in (texts[it] for it in self.numbers(self.data["output"]))]


def written(tests, words, **more):
    """The page that an exploration writes, which must do its work, and its bytes."""
    status, out, err = tests.run([*words, "--html=out.html"], **more)
    if status > 1 or err:
        raise ValueError(f"{words}: status {status}: {err}{out}")
    content = (tests.room / "out.html").read_bytes()
    return Page(content.decode("utf-8")), content


def asked(tests, words, lines):
    """What a session of the program has for a report and an output with these lines, at the step of the options."""
    step = next(it for it in words if it.startswith("--step=")).removeprefix("--step=")
    script = "".join(f"{it}\n" for it in (*lines, f"goto {step}", f"look output 0 {runs.MOST_OUTPUT}", "report"))
    options = [it for it in words if not it.startswith("--step=")]
    done = subprocess.run([tests.program, "look", *options], cwd=tests.room, input=script.encode(), capture_output=True, check=True)
    replies = done.stdout.decode("latin-1").split("\n")[len(lines) + 1:]
    return "\n".join(replies[1:]), bytes.fromhex(replies[0].partition(" ")[2])


def ran(tests, words, line):
    """What `run` prints for an input with a byte changed."""
    name = next(it for it in words if it.startswith("--input=")).removeprefix("--input=")
    given, (_, at, value) = bytearray((tests.room / name).read_bytes()), line.split(" ")
    given[int(at)] = int(value)
    (tests.room / "changed.given").write_bytes(given)
    options = [it for it in words if not it.startswith("--input=")]
    return subprocess.run([tests.program, "run", *options, "--input=changed.given"], cwd=tests.room, capture_output=True,
                          check=False).stdout.decode("latin-1")


# ---- reports


def test_reports(tests):
    """Of each kind of edit some reports and outputs, by chance, are those that the program prints for them."""
    for name in ("station.elf", "station.input", "boot.elf", "boot.input"):
        shutil.copy(EXAMPLES / "firmware" / name, tests.room)
    shutil.copy(EXAMPLES / "firmware" / "rv32imc" / "boot.elf", tests.room / "boot-short.elf")
    chance = random.Random(8)
    for label, words, more, count in (
            ("bytes", [*STATION, "--step=1600"], ["--bytes=0..2", "--values=0,3,8,9"], 12),
            ("flips", PACKET[:2] + PACKET[3:], PACKET[2:3], 64), ("words left out", BOOT, ["--code=verify"], 13),
            ("bits of words", BOOT, ["--words=0x10230..0x10234", "--words-values=flips"], 64),
            ("instructions of 16 bits", SHORT, ["--code=verify"], 13), ("steps", BOOT, ["--at=1260..1268", "--faults=skip,pc,words"], 585),
            ("bytes of memory at steps", BOOT, ["--at=1260..1261", "--faults=memory"], None),
            ("pairs at steps", BOOT, ["--at=1262..1270", "--faults=zero", "--pairs=skip"], 315),
            ("bytes and words", [*STATION, "--step=1600"], ["--bytes=1", "--values=0,8", "--words=0x10204"], 3)):
        page, _ = written(tests, [*words, *more])
        lines, reports, outputs = list(page.lines()), page.reports(), page.outputs()
        tests.check(f"--html: {label}, each edit", "" if len(lines) == len(set(lines)) == len(reports) - 1 and count in (None, len(lines))
                    else (len(lines), len(reports)))
        tests.check(f"--html: {label}, the unedited run", (reports[0], outputs[0]) != asked(tests, words, []))
        for at in sorted(chance.sample(range(len(lines)), min(CHOSEN, len(lines)))):
            wanted = asked(tests, words, lines[at].split("; "))
            came = reports[at + 1], outputs[at + 1]
            tests.check(f"--html: {label}, {lines[at]}", "" if came == wanted else (came, wanted))
            if lines[at].startswith("input "):
                tests.check(f"--html: {label}, `run` with {lines[at]}", ran(tests, words, lines[at]) != came[0])


# The examples of the page, each with what is edited, and how many edits its recording has.
RECORDED = [
    ("station", ["station.elf", "--input=station.input"], 10455), ("packet", ["packet.elf", "--input=packet.input"], 2040),
    ("kinds", ["kinds.elf", "--input=kinds.input"], 255), ("boot", ["boot.elf", "--input=boot.input"], 4845),
    ("boot for rv32imc", ["boot-short.elf", "--isa=rv32imc", "--input=boot.input"], 4845),
    ("use-after-free", ["use-after-free.elf", "--code=main", "--words-values=flips"], None)]
CELLS = 500  # of the edits of each of them, by chance


def test_examples(tests):
    """Of the recording of each example the reports of hundreds of cells are those that `run` prints, or a session where it edits code."""
    for name in ("kinds.elf", "kinds.input"):
        shutil.copy(EXAMPLES / "firmware" / name, tests.room)
    shutil.copy(EXAMPLES / "use-after-free.elf", tests.room)
    chance = random.Random(9)
    for label, words, count in RECORDED:
        words = [*words, "--step=10000"]
        page, _ = written(tests, words)
        lines, reports = list(page.lines()), page.reports()
        tests.check(f"{label}: its edits", "" if len(lines) == (count or len(lines)) > 100 else len(lines))
        options = [it for it in words if not it.startswith(("--code", "--words-values"))]
        for at in sorted(chance.sample(range(len(lines)), min(CELLS, len(lines)))):
            wanted = ran(tests, options, lines[at]) if lines[at].startswith("input ") else asked(tests, options, [lines[at]])[0]
            tests.check(f"{label}: {lines[at]}", "" if reports[at + 1] == wanted else (reports[at + 1], wanted))


def test_page(tests):
    """What is in the page without a script: the headline, the errors by their places, and a link to each cell."""
    words = [*STATION, "--bytes=0..1", "--values=0,3,8", "--step=1600"]
    page, content = written(tests, words)
    text = " ".join(page.text.split())
    headline = "3 of 6 edits add an error, a leak or a stop, at 2 places. As recorded: exited 0, no errors or leaks."
    for label, wanted in (("the headline", headline), ("a place", "2Invalid write of size 1 set_name, station.c:34input 1 0show"),
                          ("a leak, in the program's own function", "1a block is definitely lost add_limits, station.c:66input 0 3show"),
                          ("the command", f"Made by {shlex.join(['replaycheck', 'explore', *words, '--html=out.html'])}."),
                          ("the step", "is what replaycheck wrote of that run at step 1,600."),
                          ("the file's sum", hashlib.sha256((tests.room / "station.elf").read_bytes()).hexdigest())):
        tests.check(f"--html: {label}", "" if wanted in text else text[:1500])
    tests.check("--html: no guarantee", [it for it in ("nothing that", "can change", "proved", "guarantee") if it in text])
    tests.check("--html: a link to a cell", "#input+1+0" not in page.links or "#input+0+3" not in page.links)
    found = {it["where"]: it["at"] for it in page.data["found"]}
    tests.check("--html: the source's line", "" if found["set_name, station.c:34"] else found)
    again = [written(tests, [*words, f"--jobs={jobs}"])[1] for jobs in (1, 3)]
    told = [re.sub(rb"--jobs=\d", b"", it) for it in again]
    tests.check("--html: the same by one session and by three", told[0] != told[1])
    status, out, err = tests.run([*words, "--html=-"])
    tests.check("--html -: in place of the summary", "" if status == 1 and out.startswith("<!doctype html>") and "edits  first" not in out
                and not err else (status, out[:300], err))
    page, _ = written(tests, [*BOOT, "--code=verify", "--goal=exited 0"])
    text = " ".join(page.text.split())
    tests.check("--html: a goal", "" if "1a line that begins with `exited 0` patch 0x0001023c 0x00000013show" in text else text[:900])
    tests.run([*PACKET, "--table=whole"])
    page, _ = written(tests, [*PACKET[:2], "--from", "whole"])
    tests.check("--html: of tables that are there", len(page.reports()) != 65)
    page, _ = written(tests, [*PACKET, "--sample=3", "--seed=7"])
    tests.check("--html: of a sample", "" if len(page.reports()) == 25 and "a sample: 3 of 8 parts" in page.text else len(page.reports()))
    tests.check("--html: nothing is left behind", tests.left())


def test_policy(tests):
    """The policy names the script and the style, and nothing in the page is from outside."""
    page, content = written(tests, [*PACKET[:2], "--bytes=0", "--values=3,8", "--step=900"])
    style = re.search(rb"<style>(.*?)</style>", content, re.S)[1]
    sums = ["'sha256-" + base64.b64encode(hashlib.sha256(it).digest()).decode() + "'" for it in (page.scripts[1].encode(), style)]
    wanted = f"default-src 'none'; script-src {sums[0]}; style-src {sums[1]}; base-uri 'none'; form-action 'none'"
    tests.check("--html: the policy", "" if page.policy == wanted else page.policy)
    tests.check("--html: nothing from outside", [it for it in page.attributes if it[1] in ("src", "style") or it[1].startswith("on")]
                or b"http:" in content or b"https:" in content or b"url(" in content)


# ---- names with markup, what is left out, what fails


def test_markup(tests):
    """Names of functions, files and sources, and texts of sources and inputs, that end elements: they are text."""
    words, call = assemble("nop\nli a0, 0\nli a7, 93\necall\nlb a1, 0(zero)\njalr zero, 0(ra)"), assemble("jal ra, .+16")[0]
    name = 'a"<b>&\'.elf'
    tests.file(name, elf(words, symbols=[("main", ENTRY, 16), (MARKUP, ENTRY + 16, 8)]))
    page, content = written(tests, ["--words=0x10000", f"--words-values={call}", "--step=900", name])
    before, at, after = content.partition(b'<script type="application/json" id="data">')
    tests.check("--html: a name with markup is text", "" if page.tags.count("img") == page.tags.count("b") - 1 == 0 and MARKUP in page.text
                and name in page.text and MARKUP.encode() not in content and b"&lt;img" in before else page.tags)
    tests.check("--html: data without a <", b"<" in after.partition(b"</script>")[0])
    if shutil.which(GCC):
        evil = tests.room / "evil"
        evil.mkdir()
        name, main = f"<b>{ENDS.replace('/', '')}.c", f"""int main(const unsigned char *given, int count)
{{
    volatile unsigned char *at = (void *)(given[0] ? 0x900 : given[0] + given);  /* {ENDS} */
    return *at + count;
}}
"""
        text = f'{START}\n#line 1 "{name}"\n{main}'
        (evil / "evil.c").write_text(text)
        (evil / name).write_text(main)
        subprocess.run([*words_of("rv32im", "evil.elf", "-O0"), "evil.c"], cwd=evil, check=True)
        (evil / "evil.input").write_bytes(b"\0" + ENDS.encode())
        page, content = written(tests, ["evil/evil.elf", "--input=evil/evil.input", "--bytes=0..2", "--values=1,60"])
        pieces = json.dumps([it["pieces"] for it in page.data["files"]])
        tests.check("--html: a source with markup is text", "" if page.tags.count("script") == 2 and ENDS in pieces
                    else (page.tags.count("script"), pieces[:300]))
        names = [it["name"] for it in page.data["files"]]
        tests.check("--html: a source's name with markup", "" if name in names else names)
        private = evil / "key"
        private.write_text("a secret\n" * 9)
        (evil / "evil.c").write_text(text.replace(name, str(private)))
        subprocess.run([*words_of("rv32im", "evil.elf", "-O0"), "evil.c"], cwd=evil, check=True)
        content = written(tests, ["evil/evil.elf", "--input=evil/evil.input", "--bytes=0", "--values=1"])[1]
        tests.check("--html: a file that isn't named as a source", b"a secret" in content or b"key" not in content)
    else:
        tests.left_out("--html: sources with markup", GCC)


def bounded(tests, bound, words):
    """The page of a tool with another bound."""
    (tests.room / "out.html").unlink(missing_ok=True)
    subprocess.run([sys.executable, "-c", BOUNDED, bound, *words, "--html=out.html"], cwd=tests.room, env=tests.environment(),
                   stdout=subprocess.DEVNULL, stderr=subprocess.DEVNULL, check=False)
    page = Page((tests.room / "out.html").read_text("utf-8"))
    return page, " ".join(page.text.split())


def test_left_out(tests):
    """What a file has no room for is counted, and what is new stays."""
    page, text = bounded(tests, "MOST_EDITS=20", PACKET)
    lines = list(page.lines())
    told = "left out: 6 places with 48 edits, as a file has at most 20 edits; none of these edits leads to something new"
    tests.check("--html: more edits than a file has", "" if len(lines) == 16 and told in text and "5 of 64 edits add an error" in text
                and "input 0 11" in lines else (lines, text[:900]))
    page, text = bounded(tests, "MOST_EDITS=7", PACKET)
    told = "left out: 8 places with 64 edits, as a file has at most 7 edits; 5 of these edits lead to something new"
    is_well = not list(page.lines()) and told in text and "#input" not in str(page.links)
    tests.check("--html: no edit has room", "" if is_well else text[:900])
    for bound, what, count in (("MOST_REPORTS=600", "report", None), ("LONGEST_REPORT=10", "report", 5),
                               ("MOST_OUTPUTS=-1", "output", 65)):
        page, text = bounded(tests, bound, PACKET)
        left = (page.reports() if what == "report" else page.outputs()).count(None)
        told = f"left out: the {what} of {left} edits, as those of the others fill the file"
        is_well = told in text and count in (None, left) and len(list(page.lines())) == 64
        tests.check(f"--html: {bound}", "" if is_well else (left, text[-900:]))


def test_wrong_runs(tests):
    """Reports that aren't those of the table, and files that change."""
    tests.run([*PACKET, "--table=whole"])
    table = (tests.room / "whole").read_bytes()
    tests.file("another", table.replace(b"\nexited 6\n", b"\nexited 200\n", 1))
    tests.refuses("--html: a table of other outcomes", [*PACKET[:2], "--from", "another", "--html=no.html"],
                  "the unedited run has another report than the table says")
    for label, does, text in (
            ("a look that is rejected", "{{ echo refused 9; cat >/dev/null; exit 0; }}", "at the unedited run: goto 4096: refused 9"),
            ("no program for looks", "exit 4", "no look at the unedited run: the program ended before it replied, with status 4"),
            ("a program that ends between edits", '{{ sed -u 40q | {program} "$@"; exit 4; }}', "no look at the run with `input "),
            ("an input that changes", "printf x >>{room}/changing.input", "--html: changing.input was changed meanwhile")):
        shutil.copy(tests.room / "packet.input", tests.room / "changing.input")
        tests.refuses(f"--html: {label}", [PACKET[0], "--input=changing.input", *PACKET[2:], "--jobs=1", "--html=no.html"], text,
                      REPLAYCHECK=looker(tests, does))
    looker(tests, "exec sleep 30")
    for number in (signal.SIGINT, signal.SIGTERM):
        (tests.room / "made").write_text("")
        words = [*PACKET, "--html=no.html", "--jobs=1", "--parts=1"]
        tests.check(f"--html: {number.name}", ended_by(tests, words, number, lambda: (tests.room / "made").read_text()))
    tests.check("--html: no file of it, and nothing left behind", (tests.room / "no.html").exists() or tests.left())


def test_in_node(tests):
    """What the page's script makes of its data: edits by their lines, with their reports."""
    node = shutil.which("node")
    if not node:
        tests.left_out("--html: by its own script", "node, of Debian's package nodejs")
        return
    page, _ = written(tests, [*BOOT, "--at=1260..1262", "--faults=words,skip"])
    lines = list(page.lines())
    words = [node, "-e", NODE, str(file.PARTS / "data.js"), *lines, "skip 1"]
    done = subprocess.run(words, input=page.scripts[0].encode(), capture_output=True, check=True)
    wanted = [[line, report.splitlines(), output.decode("latin-1")] for line, report, output in
              zip([*lines, ""], [*page.reports()[1:], page.reports()[0]], [*page.outputs()[1:], page.outputs()[0]])]
    tests.check("--html: by its own script", "" if json.loads(done.stdout) == wanted else json.loads(done.stdout)[:2])


def test_recordings(tests):
    """All of it, in the folder that `furnish` has filled."""
    for test in (test_reports, test_page, test_policy, test_markup, test_left_out, test_wrong_runs, test_in_node):
        test(tests)
