"""The cases of test-page about what one sees first: the example that a page begins with, the sentence that counts the edits that break a
run, the line on uninitialised memory, and the colours."""
import json
import math
import random
import re
import subprocess

from guest_files import elf
from page_bench import SWEPT, expect, same, sweep_flips, table_in, words_of
from replaycheck.exploring.outcomes import BADNESS, Outcome
from replaycheck.guest.assembly import assemble

STATION, PACKET = words_of("station"), words_of("packet")
COUNTED = "document.getElementById('counted').textContent"
LONG, EXIT = 1 << 18, "li a7, 93; ecall"
STALE = "document.getElementById('picture-parts').classList.contains('stale')"

# ---- the first screen


def first_screen(bench):
    """A page with nothing in its address begins with an example, an edit of it, its picture, and both runs in the line at the top."""
    with bench.page() as page:
        page.run("localStorage.clear()")
    with bench.browser.page(bench.address) as page:
        page.until("replaycheck.shown")
        bench.settle(page)
        bench.same_report(page, STATION, "the first screen")
        same("its edit", page.run("replaycheck.scenario.lines"), ["input 1 8"])
        page.until(f"{SWEPT} && !document.getElementById('counted').textContent.includes('so far')", 120)
        total, new = broken(bench, STATION, [], page.run("replaycheck.step"))
        same("the edits", page.text("counted"), f"Of the unedited run: {new} of {total:,} one-byte edits break it")
        same("the unedited run", page.text("before"), "unedited: exited with 0 · no errors")
        same("examples", page.run("[...document.querySelectorAll('#examples button')].map((it) => it.getAttribute('aria-pressed'))"),
             ["true"] + ["false"] * 5)
        same("complaints", page.complaints(), [])


# ---- the sentence that counts


def broken(bench, words, edits, step, option="--values=all", goal=None):
    """How many edits the program's table of an edited run has, and how many of them have something new; with a goal, how many reach it,
    too."""
    given = open(words[2], "rb").read()
    for line in (it for it in edits if not it.startswith("goto ")):
        _, at, value = line.split(" ")
        given = given[:int(at)] + bytes([int(value)]) + given[int(at) + 1:]
    own, table = table_of(bench, words, given, option, step)
    unedited, texts = Outcome(0, own.encode()), list(table.values())
    is_new = {text: bool(Outcome(0, text.encode()).news(unedited)) for text in {*texts}}
    counts = [len(texts), sum(is_new[it] for it in texts)]
    return counts if goal is None else [*counts, sum(any(it.startswith(goal) for it in text.split("\n")) for text in texts)]


KNOWN = {}


def table_of(bench, words, given, option, step):
    """The program's table of a run with this input."""
    key = (words[0], given, option, step)
    if key not in KNOWN:
        asked = [bench.program, "sweep", words[0], "--input", "/dev/stdin", option, f"--step={step}"]
        KNOWN[key] = table_in(subprocess.run(asked, input=given, capture_output=True, check=True).stdout.decode())
    return KNOWN[key]


def phrase(count, all_edits, called, verbs):
    return f"{f'{count:,}' if count else 'none'} of {all_edits:,} {called} {verbs[count > 1]}"


BREAK, ADD = ("breaks it", "break it"), ("adds an error, a leak or a stop", "add an error, a leak or a stop")
# What is edited, the values, a goal, and how the sentence calls the edits and what some of them do.
COUNTS = [
    ("the unedited run", [], "all", "", "one-byte edits", BREAK),
    ("a run with an error", ["input 1 8"], "all", "", "one-byte edits", ADD),
    ("a run that ends in another way", ["input 0 0"], "flips", "", "one-bit edits", BREAK),
    ("one bit turned", [], "flips", "", "one-bit edits", BREAK),
    ("edge values", [], "edges", "", "edge-value edits", BREAK),
    ("a goal", [], "flips", "exited 1", "one-bit edits", BREAK),
    ("a goal that nothing reaches", [], "edges", "exited 99", "edge-value edits", BREAK),
    ("a step of the unedited run", ["goto 170"], "flips", "", "one-bit edits", BREAK),
    ("a step before an error", ["goto 170", "input 1 8"], "edges", "", "edge-value edits", BREAK),
    ("a step after the end", ["goto 9000"], "edges", "", "edge-value edits", BREAK),
]


def is_running(bench, edits, step):
    """Whether the edited run of station goes on at a step, by the program's report."""
    lines = [*(it for it in edits if not it.startswith("goto ")), f"goto {step}", "report"]
    return bench.native(STATION, lines)[-1].split("\n")[1].startswith("state running")


def counts(bench):
    """The sentence at the top counts what the program's table of the run that is shown has."""
    with bench.open() as page:
        for label, edits, values, goal, called, verbs in COUNTS:
            page.run(f"replaycheck.use({json.dumps(chr(10).join(edits))})")
            bench.settle(page)
            page.set("goal", goal, "input")
            page.set("sweep-values", values)
            page.click_on("#sweep")
            page.until(f"{SWEPT} && !replaycheck.sweeps.isStale", 120)
            total, new, *reached = broken(bench, STATION, edits, page.run("replaycheck.step"), f"--values={values}", goal or None)
            want = phrase(new, total, called, verbs)
            if goal:
                reach = phrase(reached[0], total, called, (f"reaches “{goal}”", f"reach “{goal}”"))
                want = f"{reach}, and {new or 'none'} {verbs[new > 1]}"
            page.until(f"!{COUNTED}.includes('so far')", 5)
            step = page.run("replaycheck.step")
            same(label, page.run(COUNTED), want + (f" up to step {step:,}" if is_running(bench, edits, step) else ""))
        page.run("replaycheck.opening.choose('kinds')")
        bench.settle(page)
        page.set("sweep-values", "all")
        page.click_on("#sweep")
        page.until(SWEPT, 120)
        total, new = broken(bench, words_of("kinds"), [], page.run("replaycheck.step"))
        same("errors of each kind, leaks and stops", page.run(COUNTED), phrase(new, total, "one-byte edits", BREAK))


RECORD = """(() => { globalThis.seen = [];
  const note = () => { const { swept } = replaycheck.sweeps.picture;
    seen.push([document.getElementById('counted').textContent, replaycheck.scenario.lines.join(), replaycheck.sweeps.isStale,
      replaycheck.sweeps.isRecorded,
      swept ? [swept.edits, [...swept.tallies], [...swept.outcomes]] : null]); };
  new MutationObserver(note).observe(document.getElementById('counted'), { childList: true, characterData: true, subtree: true }); })()"""


def recounted(swept):
    """How many edits of a table that isn't whole have something new."""
    _, tallies, outcomes = swept
    unedited = Outcome(0, outcomes[0].encode())
    return sum(count for count, text in zip(tallies, outcomes) if Outcome(0, text.encode()).news(unedited))


def counts_on_the_way(bench):
    """While a sweep goes on, after an edit, an undo and a stop, each sentence is true of what the table had then, and says of which run it
    is. The edits of an edited run are tried where one asks for them, and stay until it isn't shown any more."""
    with bench.open(words="?workers=2") as page:
        page.run(RECORD)
        page.until(SWEPT, 120)
        page.run("replaycheck.use('input 1 8')")
        bench.settle(page)
        expect(page.run(COUNTED).startswith("Of the unedited run: "), f"after an edit it says {page.run(COUNTED)!r}")
        page.click_on("#sweep")
        page.until(f"{SWEPT} && !replaycheck.sweeps.isRecorded", 120)
        told = page.run("(async () => { document.getElementById('undo').click(); await replaycheck.isBusy;"
                        f" return {COUNTED}; }})()")
        expect(told.startswith("Of the run with 1 edit: "), f"after an undo it says {told!r}")
        page.until("replaycheck.sweeps.isRecorded", 10)
        page.until(f"!{COUNTED}.startsWith('Of the')", 10)
        page.click_on("#sweep")
        page.until(f"replaycheck.sweeps.sweep?.swept.edits > 0 && !{STALE}", 60)
        page.click_on("#stop")
        page.until("document.getElementById('stop').disabled", 10)
        stopped = page.run(COUNTED)
        seen = page.run("globalThis.seen")
        page.run("replaycheck.use('mark 55 0x20011 2 undefined')")
        bench.settle(page)
        page.set("sweep-values", "edges")
        page.click_on("#sweep")
        page.until(f"{SWEPT} && !{STALE}", 120)
        expect(page.run(COUNTED).startswith("Of this run, without marks: "), f"with a mark it says {page.run(COUNTED)!r}")
    expect(" tried before the stop " in stopped, f"after a stop it says {stopped!r}")
    going = [it for it in seen if "so far" in it[0]]
    expect(len(going) > 3, f"{len(going)} sentences alone were told on the way")
    for text, lines, is_stale, is_recorded, swept in seen:
        if swept and text:
            new, said = recounted(swept), text.split(": ")[-1]
            expect(said.startswith(f"{f'{new:,}' if new else 'none'} of ") and f" {swept[0]:,} one-byte edit" in said,
                   f"{text!r} of {swept[0]} edits, {new} of them new")
            is_other = is_stale or (is_recorded and lines != "")
            expect(text.startswith("Of ") == is_other, f"{text!r} with the lines {lines!r}, of another run: {is_other}")


# ---- uninitialised memory

CERTIFIED = [
    ("the unedited run", [], True), ("an invalid write", ["input 1 8"], True), ("a use", ["input 37 5"], False),
    ("the step of a use", ["goto 684", "input 37 5"], True), ("a step after it", ["goto 685", "input 37 5"], False),
    ("a mark in the way", ["mark 1 0x7fffffe0 4 defined"], None),
]


def certified(bench):
    """What is said of uninitialised memory is what `look certify` says of what is shown."""
    with bench.open() as page:
        for label, lines, is_clean in CERTIFIED:
            page.run(f"replaycheck.use({json.dumps(chr(10).join(lines))})")
            bench.settle(page)
            line = f"look certify {page.run('replaycheck.step')}"
            asked = [*page.run("replaycheck.scenario.lines"), f"goto {page.run('replaycheck.step')}", "look certify"]
            text = "".join(f"{it}\n" for it in asked)
            want = subprocess.run([bench.program, "look", *STATION], input=text, capture_output=True, text=True).stdout.splitlines()[-1]
            page.until(f"document.getElementById('certified').title === {json.dumps(want)}", 10)
            same(f"{label}: what the program says", want.startswith(("clean to step", "clean up to step")), is_clean is True)
            told = page.text("certified") if not page.run("document.getElementById('certified').hidden") else None
            same(f"{label}: {line}", told and ("no influence" in told), is_clean)
            same(f"{label}: whether it goes on", "the run goes on" in (told or ""), want.endswith("the run goes on"))
            until = re.match(r"clean up to step (\d+):", want)
            step = f"up to step {int(until[1]):,};" if until else "up to"
            same(f"{label}: up to which step", step in (told or ""), bool(until))
        page.run("replaycheck.use('input 37 5')")
        bench.settle(page)
        page.until("document.getElementById('certified').title.includes('first use')", 10)
        page.click_on("#certified")
        bench.settle(page)
        same("the step of the first use", page.run("replaycheck.step"), 684)
    certified_when_asked(bench)


# Edits of station, and the errors and the state at the end of the run: its line says that at each step.
VERDICTS = [[], ["input 1 8"], ["input 37 5"], ["input 0 0"], ["input 9 0"], ["input 1 8", "input 37 5"]]
IN_SHORT = re.compile(r"state (\w+) ?(.*)")


def verdict_of_the_run(bench):
    """Whichever step is looked at, the line at the top says how the run ends, by the program's report there; another one says how it is at
    the step."""
    chance = random.Random(5)
    with bench.open() as page:
        for edits in VERDICTS:
            end = bench.native(STATION, [*edits, "goto 100000", "report"])[-1]
            for step in (None, *(chance.randrange(1, 800) for _ in range(3)), 90000):
                page.run(f"replaycheck.use({json.dumps(chr(10).join([*edits, *([] if step is None else [f'goto {step}'])]))})")
                bench.settle(page)
                label = f"{edits} at step {step}"
                page.until("!document.getElementById('verdict').textContent.startsWith('up to step')", 20)
                same(label, in_short(page.text("verdict")), in_report(end))
                at = bench.native(STATION, [*edits, f"goto {step or 100000}", "report"])[-1]
                is_at = "state running" in at
                same(f"{label}: its own line", page.run("document.getElementById('verdict-at').hidden"), not is_at)
                if is_at:
                    same(f"{label}: the step", in_short(page.text("verdict-at").split(": ", 1)[1])[1], in_report(at)[1])
                    expect(page.text("verdict-at").startswith(f"at step {step:,}: running at "), page.text("verdict-at"))


def in_short(told):
    """How a run ends and how many errors it has, by a line of the page, which may begin with the worst error."""
    words = told.split(" · ")
    state, count = next(pair for pair in zip(words, words[1:]) if re.match("exited|running|stopped", pair[0]))
    found = re.match(r"([\d,]+) errors? in ([\d,]+) places?$", count)
    return state.replace(" with", "") if state.startswith("exited") else "running", found and found[1], found and found[2]


def in_report(report):
    """The same by a report."""
    state, rest = IN_SHORT.search(report).groups()
    errors, places = re.search(r"ERROR SUMMARY: (\d+) errors from (\d+) contexts", report).groups()
    counts = (errors, places) if errors != "0" else (None, None)
    return f"{state} {rest}" if state == "exited" else state, *counts


def new_leaks(bench):
    """Of leaks that only the edited run has it says that they are leaks, and of an error where it is."""
    with bench.open("kinds") as page:
        for value in range(24):
            page.run(f"replaycheck.use('input 0 {value}')")
            bench.settle(page)
            fresh = page.run("replaycheck.reports.groups.filter((it) => it.how === 'new').map((it) => [it.group.isError, it.group.text])")
            errors, leaks, told = sum(it for it, _ in fresh), sum(not it for it, _ in fresh), page.text("verdict")
            if len(fresh) == 1:
                expect(re.match(f"{re.escape(fresh[0][1])} in .*\\.[chS]:\\d+ \\(new\\) · ", told), f"{value}: it says {told!r}")
            elif fresh:
                counts = [f"{count} {what}{'s' * (count > 1)}" for count, what in ((errors, "error"), (leaks, "leak")) if count]
                expect(f"{' and '.join(counts)}, new" in told, f"{value}: it says {told!r}")
            else:
                expect("new" not in told, f"{value}: it says {told!r}")


# Examples with edits. Not each adds an error: of a leak there is no step to go to.
BUGS = [("station", ["input 1 8"]), ("station", ["input 37 5"]), ("station", ["input 9 0"]), ("packet", ["input 0 9"]),
        ("kinds", ["input 0 1"]), ("kinds", ["input 0 7"]), ("kinds", ["input 0 16"]), ("use-after-free", [])]
STATED = "replaycheck.machine.shown?.scenario === replaycheck.scenario && replaycheck.machine.shown.isBug"
SHOWN_ROWS = """[...document.querySelectorAll('#source tr')].flatMap((it) => (it.className === 'message'
  ? [it.textContent] : []))"""


# The landmarks of errors of the run that is shown, searched without an end.
LANDMARKS = """(async () => {
  const { Search } = await import('./run/steps.js'), { opened, scenario } = replaycheck, found = [], end = await opened.endOf(scenario);
  const search = new Search(opened.search, scenario, () => false, (it) => found.push(it));
  search.begun = Infinity;
  await search.run(end.last);
  return found.filter((it) => it.kinds.includes('error')).map((it) => it.step); })()"""


def errors_in(report):
    """The errors of a report, each with its text and the addresses and names of its trace."""
    found = re.findall(r"^error \d+: (.*)\n((?:   .*\n)*)", report, re.M)
    return [(text, re.findall(r"(0x[0-9a-f]{8}): (.*)", trace)) for text, trace in found]


def worst_of(report, plain):
    """The worst of the errors that another report doesn't have, or else the worst at all; None without any."""
    def bad(error):
        return next((bad for begin, bad in BADNESS if error[0].startswith(begin)), 0)
    had = [(text, trace) for text, trace in errors_in(plain)]
    errors = errors_in(report)
    return max([it for it in errors if it not in had] or errors, key=bad, default=None)


def goes_to_the_bug(bench):
    """After opening and after each edit the worst error's line is in view with what it is, and the state is that before its step, by the
    program's looks; a button goes there."""
    for example, lines in BUGS:
        with bench.open(example, words="?workers=1") as page:
            page.run(f"replaycheck.use({json.dumps(chr(10).join(lines))})")
            bench.settle(page)
            words, label = words_of(example), f"{example} {lines}"
            plain, report = (bench.native(words, [*it, "goto 100000", "report"])[-1] for it in ([], lines))
            worst = worst_of(report, plain)
            if worst is None:
                page.until("replaycheck.machine.rested", 20)
                same(f"{label}: no step is offered", page.run("document.getElementById('bug-step').hidden"), True)
                continue
            text, trace = worst
            found = looks_rows(bench, words, [*lines, "goto 0", f"look next error {trace[0][0]} 1 100000"])[-1]
            step = int(found.split(" ")[1])
            page.until(STATED, 20)
            same(f"{label}: the step of the state", page.run("replaycheck.machine.step"), step)
            same(f"{label}: the step of the report", page.run("replaycheck.step === replaycheck.opened.follow"), True)
            same(f"{label}: pc", page.run("replaycheck.machine.seen.pc"), int(trace[0][0], 16))
            expect(f"before step {step:,}, the worst error’s" in page.text("machine-told"), f"{label}: {page.text('machine-told')!r}")
            expect(text in page.text("verdict"), f"{label}: the line at the top says {page.text('verdict')!r}")
            page.until(f"{SHOWN_ROWS}.includes({json.dumps(text)})", 10)
            row = page.run("document.querySelector('#source tr.message').previousElementSibling.firstElementChild.textContent.trim()")
            expect(f":{row}" in page.text("verdict"), f"{label}: at line {row}, and the line at the top says {page.text('verdict')!r}")
            landmarks = page.run(LANDMARKS)
            expect(step in landmarks, f"{label}: the landmarks of errors are at {landmarks}, and not at {step}")
            page.click_on("#bug-step")
            bench.settle(page)
            same(f"{label}: where the button goes", page.run("replaycheck.step"), step)
            bench.same_report(page, words, f"{label}: the report there")
            same(f"{label}: complaints", page.complaints(), [])


def looks_rows(bench, words, lines):
    """The lines that `look` replies."""
    given = "".join(f"{it}\n" for it in lines)
    return subprocess.run([bench.program, "look", *words], input=given, capture_output=True, text=True, check=True).stdout.splitlines()


# ---- the first screen, and the output

# Widths and heights of windows, and how many of them from the top have the picture, the line of the error and the output.
SCREENS = [(1280, 800, 1), (1920, 1080, 1), (768, 1024, 3), (360, 800, 3)]
SEEN_FIRST = ("#picture", "#source tr.message", "#output-lines li")


def first_things(bench):
    """The picture, the line of the error with what it is, and the output are on the first screen, or on the first three of a narrow one."""
    for width, height, screens in SCREENS:
        with bench.browser.page(f"{bench.address}?workers=1#example=station&lines=input+1+8", width=width, height=height) as page:
            page.until("replaycheck.shown")
            bench.settle(page)
            page.until(f"{SWEPT} && document.querySelector('#output-lines button') !== null && {STATED}", 120)
            for it in SEEN_FIRST:
                page.until(f"document.querySelector({json.dumps(it)}) !== null", 20)
                below = page.run(f"document.querySelector({json.dumps(it)}).getBoundingClientRect().bottom + scrollY")
                expect(below <= screens * height, f"{it} ends {below} pixels from the top at {width} x {height}")


OUTPUTS = [[], ["input 1 8"], ["input 9 0"], ["input 2 0x0a"], ["input 2 0x48"], ["input 0 0"], ["input 2 0xc3", "input 3 0x5c"]]
LINES = """[...document.querySelectorAll('#output-lines li')].map((it) => [it.className,
  [...it.childNodes].filter((one) => one.className !== 'quiet').map((one) => one.textContent).join('')])"""


def written_by(bench, words, edits):
    """What a run writes, by the program, and the steps that write with how many bytes each."""
    rows = looks_rows(bench, words, [*edits, "goto 100000", "look output 0 4096", "look calls 0 100000"])
    [output] = [bytes.fromhex(row[6:]) for row in rows if row.startswith("bytes")]
    return output, [[int(it) for it in re.findall(r"\d+", row)] for row in rows if " output " in row]


def shown_as(output):
    """Bytes as lines of the page."""
    rows = output.split(b"\n")
    told = ["".join("\\\\" if it == 92 else chr(it) if 31 < it < 127 else f"\\x{it:02x}" for it in row) for row in rows]
    return told[:-1] if told[-1] == "" else told


def outputs(bench):
    """The output is what the program writes, each part leads to the step that writes it, and a line that the unedited run writes
    otherwise is marked."""
    plain = shown_as(written_by(bench, STATION, [])[0])
    with bench.open() as page:
        for edits in OUTPUTS:
            page.run(f"replaycheck.use({json.dumps(chr(10).join(edits))})")
            bench.settle(page)
            output, writes = written_by(bench, STATION, edits)
            want = shown_as(output)
            page.until(f"replaycheck.whole.written?.scenario === replaycheck.scenario && "
                       f"document.querySelectorAll('#output-lines button').length >= {len(writes)}", 20)
            told = page.run(LINES)
            same(f"{edits}: lines", [text for how, text in told if how != "gone"], [it or " " for it in want])
            same(f"{edits}: lines only of the unedited run", [text for how, text in told if how == "gone"], plain[len(want):])
            marks = [edits != [] and (i >= len(plain) or plain[i] != line) for i, line in enumerate(want)]
            same(f"{edits}: which lines differ", [how == "differs" for how, _ in told if how != "gone"], marks)
            count = f"{len(output)} bytes" if output else "none"
            expect(page.text("output-told").startswith(count), f"{edits}: {page.text('output-told')!r}")
            if writes:
                page.click_on("#output-lines button")
                bench.settle(page)
                same(f"{edits}: the step of the first part", page.run("replaycheck.step"), writes[0][0])
                same(f"{edits}: it is yet to come", page.run("document.querySelector('#output-lines button').className"), "later")
        same("complaints", page.complaints(), [])


def own_file_to_the_bug(bench):
    """A file of one's own with an error is opened at the error, and an edit that takes it away leads back to the end of the run."""
    given = bytearray(open(STATION[2], "rb").read())
    given[1] = 8
    with bench.page(words="?workers=1") as page:
        bench.give(page, {"program": open(STATION[0], "rb").read(), "input": bytes(given)})
        bench.settle(page)
        page.until(STATED, 20)
        same("the function of the code", page.run("replaycheck.code.shown.name"), "set_name")
        expect("station.c" in page.text("source-told"), f"the source says {page.text('source-told')!r}")
        page.run("replaycheck.use('input 1 7')")
        bench.settle(page)
        page.until("replaycheck.machine.shown?.scenario === replaycheck.scenario && !replaycheck.machine.shown.isBug", 20)
        same("the state then", page.text("machine-told"), "exited 0, so nothing changes any more")
        same("the step that is offered", page.run("document.getElementById('bug-step').hidden"), True)


def certified_when_asked(bench):
    """Of a long run it is said only once somebody asks."""
    with bench.page() as page:
        bench.give(page, {"program": elf(assemble(f"lui t0, {LONG >> 12}; addi t0, t0, -1; bne t0, zero, .-4; {EXIT}"))})
        bench.settle(page)
        page.until("document.getElementById('certified').textContent.endsWith('matter?')", 10)
        page.click_on("#certified")
        page.until("document.getElementById('certified').title.startsWith('clean to step')", 60)
        same("of a long run", page.text("certified"), "uninitialised memory has no influence on it")


# ---- colours

# How the colour-blind see the parts of light: Machado, Oliveira and Fernandes 2009, severity 1; and OKLab, in which they are compared.
SIGHTS = {
    "normal": ((1, 0, 0), (0, 1, 0), (0, 0, 1)),
    "deuteranopia": ((0.367322, 0.860646, -0.227968), (0.280085, 0.672501, 0.047413), (-0.011820, 0.042940, 0.968881)),
    "protanopia": ((0.152286, 1.052583, -0.204868), (0.114503, 0.786281, 0.099216), (-0.003882, -0.048116, 1.051998)),
}
CONES = ((0.4122214708, 0.5363325363, 0.0514459929), (0.2119034982, 0.6806995451, 0.1073969566),
         (0.0883024619, 0.2817188376, 0.6299787005))
LAB = ((0.2104542553, 0.7936177850, -0.0040720468), (1.9779984951, -2.4285922050, 0.4505937099),
       (0.0259040371, 0.7827717662, -0.8086757660))
LEAST_APART = 0.06  # three times what one can just tell apart
HARMLESS = ("unedited", "ending", "running")
LEAST_CONTRAST = 3


def times(matrix, parts):
    return [sum(a * b for a, b in zip(row, parts)) for row in matrix]


def light_of(colour):
    parts = [int(colour[at:at + 2], 16) / 255 for at in (1, 3, 5)]
    return [it / 12.92 if it <= 0.04045 else ((it + 0.055) / 1.055) ** 2.4 for it in parts]


def seen_as(colour, sight):
    parts = [min(1, max(0, it)) for it in times(SIGHTS[sight], light_of(colour))]
    return times(LAB, [it ** (1 / 3) for it in times(CONES, parts)])


def apart(one, other):
    """How far two colours are apart for those who tell them apart the least."""
    return min(math.dist(seen_as(one, it), seen_as(other, it)) for it in SIGHTS)


def contrast_of(one, other):
    high, low = sorted((sum(a * b for a, b in zip(light_of(it), (0.2126, 0.7152, 0.0722))) for it in (one, other)), reverse=True)
    return (high + 0.05) / (low + 0.05)


# Two colours and whether the measure calls them apart, so that it can fail.
MEASURED = [("black and white", "#000000", "#ffffff", True), ("a red and a green alike to many", "#a05a00", "#6b7a00", False),
            ("a blue and a violet alike to many", "#6f7fd0", "#8f7fd0", False), ("a colour and itself", "#d95614", "#d95614", False)]


def colours(bench):
    """Each kind of error has a colour of its own, which the colour-blind tell from each other one, and which stands out from harmless
    ones by 3 to 1."""
    for label, one, other, are in MEASURED:
        same(label, apart(one, other) >= LEAST_APART, are)
    with bench.page() as page:
        told, kinds = page.run("import('./sweep/colours.js').then(({ COLOURS, KINDS }) => [COLOURS, KINDS])")
    same("kinds", set(kinds), {begin for begin, _ in BADNESS})
    expect(set(kinds.values()) <= set(told), f"no colour of {set(kinds.values()) - set(told)}")
    for dark in (0, 1):
        ground, near = [], []
        for name, pair in told.items():
            near += [(name, other) for other in told if other < name and apart(pair[dark], told[other][dark]) < LEAST_APART]
            if name not in HARMLESS:
                ground += [(name, it) for it in HARMLESS[:2] if contrast_of(pair[dark], told[it][dark]) < LEAST_CONTRAST]
        same(f"colours that are alike, {'dark' if dark else 'light'}", near, [])
        same(f"colours that don't stand out, {'dark' if dark else 'light'}", ground, [])
        far = contrast_of(told["running"][dark], told["unedited"][dark])
        expect(far >= LEAST_CONTRAST, f"a run that goes on stands out by {far} to 1")


# ---- the picture and its legend


def below_the_bytes(bench):
    """Each column of the picture is below its byte where all bytes are in one row, and begins and ends with the rows else."""
    for width, is_one_row in ((360, False), (1280, True), (2560, True)):
        with bench.open(width=width) as page:
            sweep_flips(page)
            same(f"one row at {width}", page.run("replaycheck.bytes.isOneRow"), is_one_row)
            far = page.run("""(() => { const { picture } = replaycheck.sweeps, { left } = picture.canvas.getBoundingClientRect();
              return [...document.querySelectorAll('#bytes [role=gridcell]')].map((it, at) => {
                const [x, , wide] = picture.box(at * picture.rows), box = it.getBoundingClientRect();
                return Math.max(Math.abs(left + x - box.left), Math.abs(left + x + wide - box.right)); }); })()""")
            expect(not is_one_row or max(far) < 1, f"a column is {max(far)} pixels from its byte at {width}")
            begin = page.run("""(() => { const { picture } = replaycheck.sweeps;
              return picture.canvas.getBoundingClientRect().left + picture.box(0)[0]
                - document.querySelector('#bytes [role=gridcell]').getBoundingClientRect().left; })()""")
            expect(abs(begin) < 1, f"the picture begins {begin} pixels from the first byte at {width}")


def legend(bench):
    """The legend has a line an outcome; runs that differ in their exit status alone are one line, which opens; of one that is
    pointed at the picture shows no other."""
    with bench.open("packet", words="") as page:
        page.until(SWEPT, 120)
        own, table = table_of(bench, PACKET, open(PACKET[2], "rb").read(), "--values=all", page.run("replaycheck.step"))
        statuses = {it for it in table.values() if it.startswith("exited") and it != own and "\n" not in it}
        rows = "[...document.querySelectorAll('#legend-rows tr')]"
        told = page.run(f"{rows}.map((it) => it.querySelector('summary').textContent)")
        expect(f"exited with one of {len(statuses)} statuses" in told, f"the legend says {told}")
        expect(len(told) < 6, f"the legend has {len(told)} rows")
        same("edits", page.run(f"{rows}.map((it) => Number(it.querySelector('.number').textContent.replace(',', '')))"
                               ".reduce((a, b) => a + b)"), len(table))
        index = told.index(f"exited with one of {len(statuses)} statuses")
        page.click_on(f"#legend-rows tr:nth-child({index + 1}) summary")
        listed = page.run(f"{rows}[{index}].querySelectorAll('details div').length")
        expect(listed > 30, f"{listed} lines are listed")
        tall = page.run(f"{rows}.map((it) => it.querySelector('summary').getBoundingClientRect().height)")
        expect(all(it < 30 for it in tall[:index]), f"summaries are {tall} pixels high")
        page.run(f"{rows}[0].querySelector('input').focus()")
        page.press("ArrowDown", "ArrowRight")
        same("what is below and beside the first box", page.run("document.activeElement.textContent"), told[1])
        page.run(f"{rows}[0].dispatchEvent(new PointerEvent('pointerover', {{ bubbles: true }}))")
        same("what is pointed at", page.run("replaycheck.sweeps.picture.legend.pointed.length"), 1)
