"""A recording of a sweep as one HTML file: what `replaycheck explore --html` writes. Texts of programs, inputs and sources get into it as
text only: into the part that needs no script by `html.escape`, into the data as JSON without a `<`."""
from __future__ import annotations

import base64
import hashlib
import html
import json
import pathlib
import re
import shlex
import sys
from typing import Dict, Iterator, List, Tuple
from urllib.parse import quote_plus

from replaycheck.exploring.outcomes import Outcome
from replaycheck.exploring.picture import BY_KIND, kind_of_outcome
from replaycheck.exploring.summary import counted
from replaycheck.guest.lines import LONGEST_SHOWN, shown_name

from .bugs import Bugs
from .cells import Cells, runs_of, steps_of
from .runs import MOST_EDITS, MOST_OUTPUT, Chosen, LeftOut, Recorder
from .sources import Sources

PARTS = pathlib.Path(__file__).parent / "parts"
SCRIPTS = ("data.js", "picture.js", "view.js")
MARK = re.compile(r"\[\[([a-z]+)\]\]")
GOAL = "g"
HARMLESS = ("o1", "o", "o0")
FILES = ("program", "input", "suppressions")


def text_of(value: str) -> str:
    """A text as HTML has it: printable characters, all else as `\\x1b`."""
    told = "".join(shown_name(value[at:at + LONGEST_SHOWN]) for at in range(0, len(value), LONGEST_SHOWN))
    return html.escape(told, quote=True)


def json_of(value: object) -> str:
    """A value as JSON that can be the text of a script element: ASCII, without a `<`."""
    return json.dumps(value, separators=(",", ":"), ensure_ascii=True).replace("<", "\\u003c")


def fragment(line: str) -> str:
    """The part of an address after `#` by which a recording shows an edit."""
    return "#" + quote_plus(line, safe=";")


class Kinds:
    """What the outcomes of a merged table are: something new, one that reaches the goal, or harmless."""

    def __init__(self, merged, goal):
        self.merged, self.goal = merged, goal
        self.news: List[list] = []
        self.outcomes: List[Outcome] = []

    def learn(self, number: int) -> None:
        while len(self.news) <= number:
            index = len(self.outcomes)
            self.outcomes.append(Outcome(index, self.merged.outcomes[index]))
            self.news.append(self.outcomes[index].news(self.outcomes[0]) if index else [])

    def is_goal(self, number: int) -> bool:
        return self.goal is not None and self.goal.is_reached(number)

    def is_new(self, number: int) -> bool:
        self.learn(number)
        return bool(self.news[number]) or self.is_goal(number)

    def kind(self, number: int) -> str:
        """The class of an outcome's colour."""
        self.learn(number)
        outcome, unedited = self.outcomes[number], self.outcomes[0]
        if number and self.is_goal(number):
            return GOAL
        return kind_of_outcome(number, self.news[number], outcome.is_running and not unedited.is_running)


class Recording:
    """Takes the places of a merged table, records their runs, and makes the file."""

    def __init__(self, request, merged, goal, jobs: int):
        self.request, self.merged, self.jobs = request, merged, jobs
        self.kinds = Kinds(merged, goal)
        self.chosen = Chosen(self.kinds.is_new)
        self.add = self.chosen.add

    def content(self, summary) -> bytes:
        """The file."""
        self.summary, self.places = summary, self.chosen.end()
        self.there = {(place.range, place.at) for place in self.places}
        recorder = Recorder(self.request, self.merged.head, self.merged.outcomes, self.jobs)
        recorder.record(self.places)
        self.reports, lines = recorder.reports_kept()
        self.outputs, self.left = recorder.outputs_kept(), self.chosen.left
        self.left.reports, self.left.outputs = self.reports.left_out, self.outputs.left_out
        self.bugs = Bugs(summary, self.request, [line for line in lines if line.startswith("   ")])
        self.sources = Sources(self.request.program.path)
        self.cells = self.cells_of()
        data = self.data()
        data.update(lines=lines, unedited=recorder.unedited.decode("latin-1"), frames=self.frames(lines))
        data["files"] = self.sources.kept()
        return self.page(data).encode("utf-8")

    # ---- the data

    def cells_of(self) -> Cells:
        """The cells of the places."""
        cells, instructions = Cells(), self.summary.instructions
        steps = steps_of(self.places)
        instructions.learn_runs([(None, set(steps))] if steps else [])
        for place in self.places:
            address = instructions.address(place.at) if place.range.kind == "steps" else None
            cells.add(place, self.request, address)
        cells.end()
        found = {f"0x{address:08x}" for panel in cells.panels.values() for address in panel.addresses if address is not None}
        instructions.lines.learn(sorted(found))
        return cells

    def data(self) -> Dict[str, object]:
        """What the script reads, but for what the reports' lines say. Each list of numbers is one of runs; in those of edits the first is
        of the unedited run."""
        outcomes: Dict[int, int] = {0: 0}
        numbers = [outcomes.setdefault(edit, len(outcomes)) for place in self.places for edit in place.edits.values()]
        notes: Dict[str, int] = {"": 0}
        cells = self.cells
        edits = {"panel": cells.panel, "column": cells.column, "row": cells.row, "form": cells.form, "outcome": numbers}
        return {
            "step": self.merged.head.step, "panels": [self.panel(panel, notes) for panel in cells.panels.values()], "notes": list(notes),
            "forms": list(cells.forms), "edits": {name: runs_of([0, *values]) for name, values in edits.items()},
            "reports": [runs_of(report) for report in self.reports.all], "outputs": [written(output) for output in self.outputs.all],
            "report": runs_of(self.reports.of), "output": runs_of(self.outputs.of), "mostOutput": MOST_OUTPUT,
            "outcomes": [self.outcome(outcome) for outcome in outcomes], "found": [self.found(found) for found in self.bugs.all]}

    def panel(self, panel, notes: Dict[str, int]) -> Dict[str, object]:
        where = self.summary.instructions.where
        told = ["" if address is None else where(address) for address in panel.addresses]
        return {"caption": panel.caption, "isOfBytes": panel.is_of_bytes, "columns": panel.columns, "before": panel.before,
                "rows": panel.rows, "notes": runs_of([notes.setdefault(note, len(notes)) for note in told])}

    def outcome(self, number: int) -> Dict[str, object]:
        return {"kind": self.kinds.kind(number), "state": self.summary.outcomes[number].told, "has": self.bugs.of[number],
                "new": self.bugs.new[number]}

    def found(self, found) -> Dict[str, object]:
        at = found.lead and found.lead.place and self.sources.add(found.lead.place)
        return {"text": found.text, "trace": found.trace, "title": found.title, "where": found.where, "at": at}

    def frames(self, lines: List[str]) -> Dict[str, object]:
        """The calls that each frame of a report is, and the place of the innermost."""
        told: Dict[str, object] = {}
        for line in lines:
            address, name = re.fullmatch(r"(?:   (?:at|by) (0x[0-9a-f]{8}): (.*))?.*", line).groups()  # type: ignore[union-attr]
            if address:
                calls = self.bugs.shown.calls_at(int(address, 16), name)
                place = calls[0].place
                told[line[6:]] = [", in ".join(map(str, calls)), place and self.sources.add(place)]
        return told

    # ---- the page

    def page(self, data: Dict[str, object]) -> str:
        script = "'use strict';\n" + "".join((PARTS / name).read_text("utf-8") for name in SCRIPTS)
        style = colours() + (PARTS / "recording.css").read_text("utf-8")
        title = text_of(self.summary.title)
        bad = sum(self.merged.tallies[outcome.number] for outcome in self.summary.outcomes if self.summary.news[outcome.number])
        policy = (f"default-src 'none'; script-src {hash_of(script)}; style-src {hash_of(style)}; base-uri 'none'; form-action 'none'")
        edits, places = self.merged.edits, self.bugs.places()
        verdict = f"{bad:,} of {counted_many(edits, 'edit')} add an error, a leak or a stop"
        parts = {
            "policy": policy, "title": f"{title}: every edit", "style": style, "script": script, "data": json_of(data), "name": title,
            "verdict": verdict if edits else "No edits",
            "counts": f"{verdict}{self.places_told(len(places))}. As recorded: {text_of(self.told(0))}.",
            "asked": text_of("; ".join(map(str, self.merged.head.ranges))), "rows": "\n".join(self.rows(places)),
            "command": text_of(shlex.join(["replaycheck", "explore", *sys.argv[1:]])), "step": f"{self.merged.head.step:,}",
            "notes": "\n".join(f"<li>{text_of(note)}" for note in self.notes())}
        return MARK.sub(lambda mark: parts[mark[1]], (PARTS / "recording.html").read_text("utf-8"))

    @staticmethod
    def places_told(count: int) -> str:
        return f", at {counted_many(count, 'place')}" if count else ""

    def told(self, number: int) -> str:
        """An outcome in few words."""
        count = len(self.bugs.of[number])
        has = counted_many(count, "error or leak", "errors and leaks") if count else "no errors or leaks"
        return f"{self.summary.outcomes[number].told}, {has}"

    def rows(self, places: list) -> Iterator[str]:
        """The rows of the table: the goal, what is new by its place, and what is harmless, each with its first edit."""
        tallies = self.merged.tallies
        by_kind: Dict[str, List[int]] = {}
        for number in range(len(tallies)):
            by_kind.setdefault(self.kinds.kind(number), []).append(number)
        reached = sum(tallies[outcome] for outcome in by_kind.get(GOAL, ()))
        if self.kinds.goal:
            yield row(GOAL, reached, f"a line that begins with {self.kinds.goal.shown}", "", self.first(by_kind.get(GOAL, [])))
        for bug in places:
            yield row(bug.kind, bug.edits, bug.found.title, bug.found.where, self.first(bug.outcomes))
        for kind in HARMLESS:
            edits = sum(tallies[outcome] for outcome in by_kind.get(kind, ()))
            if edits:
                yield row(kind, edits, BY_KIND[kind][1], "", self.first([outcome for outcome in by_kind[kind] if outcome]))

    def first(self, numbers: List[int]) -> Tuple[str, bool]:
        """The first edit that leads to one of some outcomes, and whether the file has it."""
        found = [self.merged.firsts[number] for number in numbers if number in self.merged.firsts]
        if not found:
            return "", False
        one_range, at, value, _ = min(found, key=lambda first: first[3])
        return one_range.line(at, value), (one_range, at) in self.there

    def notes(self) -> Iterator[str]:
        """What else one has to know, a line each."""
        yield from filter(None, [self.summary.step_note, *self.summary.notes])
        yield from left_out(self.left)
        yield from self.bugs.notes
        for what, given, (size, digest) in zip(FILES, self.request.files, self.merged.head.files):
            if given.name:
                yield f"{what}: {pathlib.Path(given.name).name}, {counted_many(size, 'byte')}, SHA-256 {digest}"


def left_out(left: LeftOut) -> Iterator[str]:
    """What the file doesn't have, in lines."""
    if left.places:
        new = f"{left.new:,} of these edits lead" if left.new else "none of these edits leads"
        yield (f"left out: {counted_many(left.places, 'place')} with {counted_many(left.edits, 'edit')}, as a file has at most "
               f"{MOST_EDITS:,} edits; {new} to something new")
    for count, what in ((left.reports, "report"), (left.outputs, "output")):
        if count:
            yield f"left out: the {what} of {counted_many(count, 'edit')}, as those of the others fill the file"


def counted_many(number: int, one: str, many: str = "") -> str:
    """A number with its noun, and commas in a large number."""
    return counted(number, one, many).replace(str(number), f"{number:,}", 1)


def row(kind: str, edits: int, what: str, where: str, first: Tuple[str, bool]) -> str:
    """A row of the table of outcomes."""
    line, is_there = first
    place = f'<span class="where">{text_of(where)}</span>' if where else ""
    show = f'<a class="show" href="{html.escape(fragment(line))}">show</a>' if is_there else ""
    return (f'<tr><td><span class="swatch {kind}"></span><td class="count">{edits:,}<td>{text_of(what)} {place}'
            f'<td><code>{text_of(line)}</code><td>{show}')


def written(output) -> List[object]:
    return [output.before, output.after, output.between.decode("latin-1")]


def hash_of(text: str) -> str:
    """What a policy names an inline text by."""
    return "'sha256-" + base64.b64encode(hashlib.sha256(text.encode("utf-8")).digest()).decode() + "'"


def colours() -> str:
    """The colours of outcomes, those of the picture that `--svg` draws."""
    pairs = {name: pair for name, (_, _, pair) in BY_KIND.items()}
    light, dark = ("".join(f"--{name}:{pair[i]};" for name, pair in pairs.items()) for i in (0, 1))
    swatches = "".join(f".{name}{{background:var(--{name})}}" for name in pairs)
    return f":root{{{light}}}@media(prefers-color-scheme:dark){{:root{{{dark}}}}}{swatches}\n"
