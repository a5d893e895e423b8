"""The case of test-page about states by chance: the report of each, how its run ends, and what is said of uninitialised memory."""
import json
import random
import re
import subprocess

from page_bench import EXAMPLES, expect, same, words_of

STATES_EACH = 5  # of each example
MOST_EDITS = 4
ERRORS = re.compile(r"([\d,]+) errors? in ([\d,]+) places?")
ENDS = {"exited": "exited with {0}", "running": "running at", "stopped": "stopped: "}


def edit(chance, length, last):
    """A line that edits a run with an input of this length and so many steps."""
    step, register = chance.randrange(1, last), chance.randrange(1, 32)
    kinds = [f"input append {chance.randrange(256)}", f"set {step} x{register} {chance.choice((0, 1, 0xffffffff))}",
             f"flip {step} x{register} {1 << chance.randrange(32):#x}", f"skip {step}", f"option redzone {chance.choice((0, 16, 64))}"]
    if length:
        kinds += 4 * [f"input {chance.randrange(length)} {chance.randrange(256)}"]
    return chance.choice(kinds)


def verdict_of(report):
    """How the line at the top says how a run ends, by a report."""
    state, rest = re.search(r"^state (\w+) ?(.*)", report, re.M).groups()
    errors, places = re.search(r"ERROR SUMMARY: (\d+) errors from (\d+) contexts", report).groups()
    return ENDS[state].format(rest), (errors, places) if errors != "0" else None


def random_states(bench):
    """States by chance, half of them before the end of the run: the report is the program's, the line at the top says how the program's run
    ends whichever step is looked at, and what is said of uninitialised memory is what the program says of that step."""
    chance = random.Random(21)
    for example in EXAMPLES:
        words = words_of(example)
        with bench.open(example) as page:
            last, length = page.run("[replaycheck.opened.last, replaycheck.opened.base.length]")
            for number in range(STATES_EACH):
                lines = [edit(chance, length, last) for _ in range(chance.randint(1, MOST_EDITS))]
                step = chance.randrange(1, last) if number % 2 else None
                label = f"{example}: {lines} at step {step}"
                page.run(f"replaycheck.use({json.dumps(chr(10).join([*lines, *([] if step is None else [f'goto {step}'])]))})")
                bench.same_report(page, words, label)
                state_at(bench, page, words, label)


def state_at(bench, page, words, label):
    lines, step, follow = page.run("[replaycheck.scenario.lines, replaycheck.step, replaycheck.opened.follow]")
    page.until("!document.getElementById('verdict').textContent.startsWith('up to step')", 20)
    ends, errors = verdict_of(bench.native(words, [*lines, f"goto {follow}", "report"])[-1])
    told = page.text("verdict")
    found = ERRORS.search(told)
    expect(ends in told, f"{label}: {told!r}, and not {ends!r}")
    same(f"{label}: errors", found and (found[1].replace(",", ""), found[2].replace(",", "")), errors)
    text = "".join(f"{it}\n" for it in [*lines, f"goto {step}", "look certify"])
    said = subprocess.run([bench.program, "look", *words], input=text, capture_output=True, text=True, check=True).stdout.splitlines()[-1]
    page.until(f"document.getElementById('certified').title === {json.dumps(said)}", 10)
    same(f"{label}: {said}", "no influence" in page.text("certified"), said.startswith(("clean to step", "clean up to step")))
