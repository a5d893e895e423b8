"""The panels of steps, as SVG: cells, axes, the functions below, and a legend by what an edit leads to."""
from .picture_parts import LEAST_MARK, LEFT, xml
from .step_panels import function_of, runs_of

# What an edit of a step leads to, the worst first: the class of its colour, the least rank, and a text. Ranks are those of `BADNESS`.
KINDS = (("g", 1000, "reaches the goal"), ("n1", 80, "an invalid write or free, or a jump to nowhere"), ("n2", 70, "an invalid read"),
         ("n4", 60, "it stops"), ("n3", 50, "a use of uninitialised bits"), ("n", 1 + 20, "a leak"),
         ("o1", 20, "it still runs"), ("o2", 0, "another end, and nothing new"), ("o0", -1, "as unedited"))
BAND, BAND_TEXT, ROOM = 12, 6.2, 74
LONGEST_NOTE = 60


def kind_of_rank(rank):
    return next(name for name, least, _ in KINDS if rank >= least)


class StepPicture:
    """Draws grids of steps, one below the other. `picture` knows outcomes."""

    def __init__(self, picture, panels, instructions):
        self.picture, self.instructions = picture, instructions
        self.is_known = bool(instructions and instructions.request)
        self.grids = panels.grids(picture.rank, instructions if self.is_known else None)

    @property
    def notes(self):
        """Where columns or rows are shared."""
        found = []
        for grid in self.grids:
            for count, drawn, what, bins in ((grid.of_columns, grid.columns, grid.axis, "columns"),
                                             (grid.of_rows, grid.rows, grid.row_word, "rows")):
                if drawn < count:
                    found.append(f"{count} {what}s share {drawn} {bins}, and the worst is seen")
        return list(dict.fromkeys(found))

    def has_bands(self, grid):
        return self.is_known and bool(grid.bands())

    def height(self, grid):
        return grid.tall * grid.rows + ROOM + (22 if self.has_bands(grid) else 4)

    def width(self, grid):
        longest = max((min(LONGEST_NOTE, len(text)) for _, text in grid.texts(self.instructions)), default=0)
        return LEFT + grid.wide * grid.columns + 20 + int(longest * BAND_TEXT)

    def body(self, top):
        for grid in self.grids:
            yield f'<text class="ink b" x="{LEFT}" y="{top + 6}">{xml(grid.caption)}</text>'
            yield from self.grid(grid, top + 16)
            top += self.height(grid)

    # ---- a grid

    def grid(self, grid, top):
        """Cells, those that are new or reach a goal on top, and what is around them."""
        marks = []
        for row, first, last in grid.runs(self.picture.kind):
            drawn = self.run(grid, top, row, first, last)
            kind = self.picture.kind(grid.cells[row][first].outcome)
            if kind[0] in "gn":
                marks.append(drawn)
            else:
                yield drawn
        yield from marks
        yield from self.axes(grid, top)
        yield from self.bands(grid, top + grid.tall * grid.rows + 24)

    def run(self, grid, top, row, first, last):
        """Cells of a row that have one kind of outcome, as a rectangle with a title."""
        kind = self.picture.kind(grid.cells[row][first].outcome)
        x, y = LEFT + first * grid.wide, top + row * grid.tall
        gap = grid.wide > 6
        wide, tall = max(LEAST_MARK, (last - first + 1) * grid.wide - gap), max(LEAST_MARK, grid.tall - (grid.tall > 4))
        return (f'<rect class="{kind}" x="{x}" y="{y}" width="{wide}" height="{tall}">'
                f"<title>{self.tip(grid, row, first, last)}</title></rect>")

    def tip(self, grid, row, first, last):
        """Which steps a rectangle has, and the worst of its edits with its outcome."""
        cell = grid.worst(row, first, last)
        edit = grid.edit(cell)
        places = [where for _, where in self.instructions.told(edit)] if self.is_known else []
        said = f"{grid.where(row, first, last)}: {edit}" + (f": {'; '.join(places)}" if places else "")
        return f"{xml(said, 300)}\n{xml(f'{cell.outcome}: {self.picture.told(cell.outcome)}', 300)}"

    def axes(self, grid, top):
        below, right = top + grid.tall * grid.rows, LEFT + grid.wide * grid.columns
        yield f'<path class="axis" fill="none" d="M{LEFT - 2.5} {top}V{below + 2.5}H{right}"/>'
        for row, name in grid.row_names():
            y = top + row * grid.tall + min(grid.tall, 14) // 2 + 4
            yield f'<text class="dim s e" x="{LEFT - 6}" y="{y}">{xml(name)}</text>'
        for row, text in grid.texts(self.instructions):
            y = top + row * grid.tall + grid.tall // 2 + 4
            yield f'<text class="dim s" x="{right + 8}" y="{y}">{xml(text, LONGEST_NOTE)}</text>'
        for index, name in grid.ticks():
            x = LEFT + index * grid.wide + grid.wide / 2
            yield f'<path class="axis" d="M{x:g} {below + 2}v5"/>'
            yield f'<text class="dim s m" x="{x:g}" y="{below + 18}">{xml(name)}</text>'
        yield f'<text class="dim s" x="{LEFT}" y="{below + (52 if self.has_bands(grid) else 34)}">{xml(grid.axis)}</text>'

    def bands(self, grid, top):
        """The functions that the steps of columns are in, if that is known."""
        steps = grid.bands() if self.is_known else []
        names = [address and function_of(self.instructions.where(address))
                 for address in self.instructions.addresses_of(steps)] if steps else []
        for first, last, name in runs_of(names):
            if name:
                yield from self.band(name, LEFT + first * grid.wide, (last + 1 - first) * grid.wide, top)

    @staticmethod
    def band(name, x, wide, top):
        shown = xml(name)
        yield f'<rect class="band" x="{x}" y="{top}" width="{max(1, wide - 1)}" height="{BAND}"><title>{shown}</title></rect>'
        if len(name) * BAND_TEXT + 4 <= wide:
            yield f'<text class="dim s" x="{x + 3}" y="{top + BAND - 3}">{shown}</text>'
