"""A picture of a sweep, as SVG."""
from .outcomes import Outcome
from .panels import panels_of
from .picture_parts import LEAST_MARK, LEFT, LEGEND_LINE, NARROWEST, NARROWEST_OF_PANELS, STYLE, TOP, xml
from .step_panels import StepPanels
from .step_picture import KINDS, StepPicture, kind_of_rank

# Colours for light and dark pages that the colour-blind tell apart. Of steps: warm for what is new, cold for what is not.
NEW = (("#d55e00", "#ff7a1a"), ("#e69f00", "#ffc04d"), ("#a6447d", "#e08bbd"), ("#7a3b00", "#c08a5a"))
OTHER_NEW = ("#1a1a1a", "#ffffff")
NOT_NEW = (("#0072b2", "#3f9fd9"), ("#56b4e9", "#1f6fa0"), ("#009e73", "#26b98c"), ("#a3d9c8", "#0f5a45"))
OTHER = ("#b9c9d9", "#62758a")
UNEDITED = ("#e4e4e4", "#3a3a3a")
# Of bytes and words, as on the page: a colour for each kind of the worst that is new, with how that begins, and greys for what is harmless.
BY_KIND = {
    "g": ((), "reaches the goal", ("#4478bf", "#73b4ff")),
    "n1": (("Invalid write",), "an invalid write", ("#cc2838", "#fe4f3c")),
    "n2": (("Jump ",), "a jump to where no memory is", ("#34000f", "#f094a8")),
    "n3": (("Invalid free",), "an invalid free", ("#a00f6e", "#ec4abb")),
    "n4": (("Invalid read",), "an invalid read", ("#d95614", "#f6a25a")),
    "n5": (("stopped ",), "a stop", ("#857371", "#f7f3ed")),
    "n6": (("Syscall ",), "an argument of a call", ("#3a2801", "#f7cea9")),
    "n7": (("Use of", "Conditional"), "a use of an uninitialised value", ("#5a4100", "#f5d825")),
    "n8": (("definitely lost at",), "a block that is definitely lost", ("#9e29fa", "#af6cfe")),
    "n9": (("",), "another leak", ("#431fa1", "#d7d2fe")),
    "o1": ((), "it still runs", ("#878f97", "#747c84")),
    "o": ((), "another end, and nothing new", ("#c9ced3", "#555b61")),
    "o0": ((), "as unedited", ("#eceef0", "#2b2f33")),
}
GOAL = ("#ffe600;stroke:#000000", "#000000;stroke:#ffffff")  # by its outline, which no other one has
BAND = ("#eeeeee", "#2c2c2c")  # a function, below steps
GOAL_RANK = 1000


class Picture:
    """Takes the places of a merged table, and draws them."""

    def __init__(self, merged, sources, goal=None):
        self.merged, self.panels, self.outcomes, self.goal = merged, panels_of(merged.head, sources), [], goal
        self.steps = next((StepPanels(one_range) for one_range in merged.head.ranges if one_range.kind == "steps"), None)

    def add(self, place):
        if place.range.kind == "steps":
            self.steps.add(place, self.rank)
        else:
            next(panel for panel in self.panels if panel.range == place.range).add(place, self.rank)

    def rank(self, number):
        """How bad an outcome is; one that reaches the goal is the worst."""
        return GOAL_RANK if self.is_goal(number) else self.badness(number)

    def is_goal(self, number):
        """Whether an outcome reaches the goal, if there is one."""
        return self.goal is not None and self.goal.is_reached(number)

    def is_mark(self, number):
        """Whether an outcome's cells are drawn on top, and never too small to be seen."""
        return self.is_goal(number) or bool(self.summary.news[number])

    def kind(self, number):
        """The class of an outcome's colour."""
        return self.kinds[number]

    def badness(self, number):
        """How bad an outcome is; the unedited run's is the least."""
        while len(self.outcomes) <= number:
            index = len(self.outcomes)
            outcome = Outcome(index, self.merged.outcomes[index])
            first = self.outcomes[0][0] if self.outcomes else outcome
            self.outcomes.append((outcome, outcome.badness(first) if index else -1))
        return self.outcomes[number][1]

    # ---- colours

    def choose_colours(self, summary):
        """The class of each outcome, by its kind: there may be too many outcomes for a colour each."""
        self.summary = summary
        if self.steps:
            self.colours = {"o0": UNEDITED, "n": OTHER_NEW, "o": OTHER}
            self.kinds = {number: kind_of_rank(self.rank(number)) for number in range(len(self.merged.outcomes))}
            named = {**{f"n{i + 1}": colour for i, colour in enumerate(NEW)},
                     **{f"o{i + 1}": colour for i, colour in enumerate(NOT_NEW)}, "g": GOAL}
            self.colours.update((kind, named[kind]) for kind in named if kind in self.kinds.values())
            self.colours["band"] = BAND
            return
        self.kinds = {number: self.kind_of(number) for number in range(len(self.merged.outcomes))}
        self.colours = {name: BY_KIND[name][2] for name in BY_KIND if name in self.kinds.values()}

    def kind_of(self, number):
        """The kind of an outcome of a sweep of bytes or words: whether it reaches the goal, or else by the worst that is new in it."""
        return "g" if self.is_goal(number) else kind_of_outcome(number, self.summary.news[number], self.badness(number) > 0)

    def style(self):
        light, dark = ("".join(f".{name}{{fill:{pair[i]}}}" for name, pair in self.colours.items()) for i in (0, 1))
        return STYLE.format(light=light, dark=dark)

    # ---- what is drawn

    def text(self, summary):
        self.choose_colours(summary)
        body, below = [], TOP + (14 if self.steps else 0)
        for panel in self.panels:
            body += self.panel(panel, below)
            below += panel.tall * panel.rows + 70
        steps = StepPicture(self, self.steps, summary.instructions) if self.steps else None
        if steps:
            body += steps.body(below)
            below += sum(map(steps.height, steps.grids))
        legend = list(self.kind_legend(below))
        wide = [LEFT + panel.wide * panel.bins + 20 for panel in self.panels]
        width = max([NARROWEST if steps else NARROWEST_OF_PANELS, *wide, *(map(steps.width, steps.grids) if steps else ())])
        height = below + LEGEND_LINE * (len(legend) + 1)
        ranges = "; ".join(map(str, self.merged.head.ranges))
        asked = f"{self.merged.edits} edits, {ranges}, step {self.merged.head.step}"
        title = xml(f"{summary.title}: {asked}", 300 if steps else 140)
        shown_title = xml(summary.title, 140) if steps else title
        shared = [f"{panel.count} places share {panel.bins} columns, and the worst is seen" for panel in self.panels
                  if panel.bins < panel.count]
        own = ["a column for each place, a row for each value, the value as it was left out"] if self.panels else []
        notes = [*own, *shared, *(steps.notes if steps else ()), *summary.notes]
        note = xml("; ".join(notes), 200)
        return "\n".join([
            '<?xml version="1.0" encoding="UTF-8"?>',
            f'<svg xmlns="http://www.w3.org/2000/svg" role="img" width="{width}" height="{height}" '
            f'viewBox="0 0 {width} {height}" font-family="DejaVu Sans, Verdana, Arial, sans-serif" font-size="12">',
            f"<title>{title}</title>", self.style(), '<rect class="bg" width="100%" height="100%"/>',
            f'<text class="ink" x="16" y="24" font-size="16">{shown_title}</text>',
            f'<text class="dim" x="16" y="44">{xml(asked, 160) if steps else note}</text>',
            *([f'<text class="dim" x="16" y="60">{note}</text>'] if steps and note else []),
            *body, *legend, "</svg>", ""])

    def panel(self, panel, top):
        """The cells of a panel, those with something new on top, and its axes."""
        marks = []
        for column, first, last in panel.runs():
            drawn = self.run(panel, top, column, first, last)
            if self.is_mark(panel.cells[column][first].outcome):
                marks.append(drawn)
            else:
                yield drawn
        yield from marks
        yield from self.axes(panel, top)

    def run(self, panel, top, column, first, last):
        """Cells of a column that have one outcome, as a rectangle with a title."""
        cell, is_small = panel.cells[column][first], panel.tall == 2
        x, y = LEFT + column * panel.wide, top + first * panel.tall
        wide, tall = panel.wide - (panel.wide > 6), (last - first + 1) * panel.tall - (not is_small)
        if self.is_mark(cell.outcome) and tall < LEAST_MARK:
            y, tall = y - (LEAST_MARK - tall) / 2, LEAST_MARK
        return (f'<rect class="{self.kinds[cell.outcome]}" x="{x}" y="{y:g}" width="{wide}" height="{tall}">'
                f"<title>{self.tip(panel, column, first, last)}</title></rect>")

    def tip(self, panel, column, first, last):
        cell, final = panel.cells[column][first], panel.cells[column][last]
        low, high = panel.places_of(column)
        edit = panel.range.line(cell.at, cell.value)
        if low == high:
            before = self.summary.before(panel.range, cell.at)
            to = f" to {panel.range.line(final.at, final.value).split(' ')[2]}" if last > first else ""
            edit += to + (f" (was {panel.range.named(before)})" if before is not None else "")
        else:
            places = f"{panel.range.kind} {panel.range.named(low)} to {panel.range.named(high)}"
            edit = f"{places}, the worst of them: {edit}"
        return f"{xml(edit)}\n{xml(f'{cell.outcome}: {self.told(cell.outcome)}', 300)}"

    def told(self, number):
        """An outcome in one line."""
        outcome = self.summary.outcomes[number]
        return "; ".join([outcome.told, *(self.summary.sources.told(part) for part in self.summary.news[number]
                                          if part.text != outcome.state)])

    def axes(self, panel, top):
        below, right = top + panel.tall * panel.rows, LEFT + panel.wide * panel.bins
        yield f'<path class="axis" fill="none" d="M{LEFT - 2.5} {top}V{below + 2.5}H{right}"/>'
        for row, name in panel.row_names():
            y = top + row * panel.tall + (4 if panel.tall == 2 else panel.tall // 2 + 4)
            yield f'<text class="dim s e" x="{LEFT - 6}" y="{y}">{xml(name)}</text>'
        for index, name in panel.ticks():
            x = LEFT + index * panel.wide + panel.wide / 2
            yield f'<path class="axis" d="M{x:g} {below + 2}v5"/>'
            yield f'<text class="dim s m" x="{x:g}" y="{below + 18}">{xml(name)}</text>'
        what = "offset in the input" if panel.range.kind == "bytes" else "address"
        yield f'<text class="dim s" x="{LEFT}" y="{below + 34}">{what}; on the left the value</text>'

    def first_of(self, numbers):
        """Of outcomes of one kind that with the most edits: its worst that is new, or how it ends; and how many more there are."""
        number = max(numbers, key=lambda candidate: (self.merged.tallies[candidate], -candidate))
        news = self.summary.news[number]
        more = f"; and {len(numbers) - 1} more" if len(numbers) > 1 else ""
        return (self.summary.sources.told(news[0]) if news else self.told(number)) + more

    def kind_legend(self, top):
        """A line for each kind of outcome that there is, the worst first."""
        yield (f'<text class="dim s e" x="110" y="{top}">edits</text>'
               f'<text class="dim s" x="120" y="{top}">the worst that an edit of a cell leads to; bold: new</text>')
        texts = {name: text for name, _, text in KINDS} if self.steps else {name: what for name, (_, what, _) in BY_KIND.items()}
        if self.goal:
            texts["g"] += f": a line that begins with {self.goal.shown}"
        there = [text for text in texts if text in self.kinds.values()]
        for index, name in enumerate(there):
            y = top + LEGEND_LINE * (index + 1)
            numbers = [number for number in self.kinds if self.kinds[number] == name]
            edits = sum(self.merged.tallies[number] for number in numbers)
            style = "ink b" if name[0] in "gn" else "ink"
            told = "; ".join(f"{number}: {self.told(number)}" for number in numbers)
            text = texts[name]
            if not self.steps and name[0] == "n":
                text, told = self.first_of(numbers), f"{text}: {told}"
            elif name != "g" and not self.steps or name == "o0":
                text += f": {self.first_of(numbers)}"
            yield (f'<rect class="{name}" x="16" y="{y - 11}" width="14" height="14"/><text class="ink e" x="110" y="{y}">{edits}</text>'
                   f'<text class="{style}" x="120" y="{y}">{xml(text, 120 if self.steps else 94)}<title>{xml(told, 1000)}</title></text>')


def kind_of_outcome(number, news, runs_on):
    """The name in BY_KIND of an outcome by its number, where the unedited run's is 0, and by what is new in it, the worst first. `runs_on`
    says whether it still runs where the unedited run ends."""
    if number == 0:
        return "o0"
    if news:
        return next(name for name, (begins, _, _) in BY_KIND.items() if news[0].text.startswith(begins or ("\n",)))
    return "o1" if runs_on else "o"
