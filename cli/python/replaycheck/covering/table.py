"""What runs have executed as a table to read: a row for each source file."""
from __future__ import annotations

from typing import Iterable, Iterator, List, Tuple

from replaycheck.demangling import Demangler

from .covered import Covered, SourceFile
from .lcov import plain
from .runs import Made

HEADS = ("File", "Lines", "Branches", "Functions", "Lines never executed")
MOST_NAMED = 10  # functions that are named before the table
WIDEST = 40  # characters of the last column


def share(part: int, whole: int) -> Tuple[str, str]:
    """A part of a whole, and its hundredths, as lcov rounds them: only all of it is 100.0%, and nothing 0.0%."""
    if not whole:
        return "-", ""
    tenths = 1000 * part // whole if part in (0, whole) else min(max((2000 * part + whole) // (2 * whole), 1), 999)
    return f"{part}/{whole}", f"{tenths // 10}.{tenths % 10}%"


def counts(file: SourceFile) -> List[Tuple[int, int]]:
    """What was executed of the lines, taken of the branches, and executed of the functions, each with how many there are."""
    ways = [is_taken for *_, branch in file.branches for is_taken, _ in branch.ways]
    functions = [function.is_executed for function in file.functions.values()]
    return [(len(file.lines) - len(file.unexecuted), len(file.lines)), (sum(ways), len(ways)), (sum(functions), len(functions))]


def spans(file: SourceFile) -> str:
    """The lines that were never executed, with those that follow each other as one: lines without code between them part none."""
    found: List[List[int]] = []
    is_open = False
    for number, line in sorted(file.lines.items()):
        if line.is_executed:
            is_open = False
            continue
        if is_open:
            found[-1][1] = number
        else:
            found.append([number, number])
        is_open = True
    texts = [str(start) if start == end else f"{start}-{end}" for start, end in found]
    for count in range(len(texts), 0, -1):
        told = ",".join(texts[:count]) + (f" and {len(texts) - count} more" if count < len(texts) else "")
        if len(told) <= WIDEST or count == 1:
            return told
    return ""


def rows(covered: Covered) -> Iterator[List[str]]:
    every = [(file, counts(file)) for file in covered.files]
    for file, found in every:
        yield [plain(file.name), *(text for pair in found for text in share(*pair)), spans(file)]
    sums = [tuple(map(sum, zip(*column))) for column in zip(*(found for _, found in every))]
    yield ["All files", *(text for pair in sums for text in share(*pair)), ""]


def table(body: List[List[str]]) -> Iterator[str]:
    """The lines of the table. A part of a whole ends where its column does, and so do the hundredths."""
    widths = [max(len(row[at]) for row in body) for at in range(8)]
    for at, name in enumerate(HEADS[1:4]):
        widths[2 * at + 1] = max(widths[2 * at + 1], len(name) - widths[2 * at + 2] - 1)
    widths[0] = max(widths[0], len(HEADS[0]))
    columns = [widths[0], *(widths[at] + 1 + widths[at + 1] for at in (1, 3, 5))]
    head = [HEADS[0].ljust(columns[0]), *(name.rjust(width) for name, width in zip(HEADS[1:4], columns[1:])), HEADS[4]]
    rule = "-" * max(len("  ".join(head)), *(sum(columns) + 8 + len(row[7]) for row in body))
    yield "  ".join(head)
    yield rule
    for number, row in enumerate(body):
        if number == len(body) - 1:
            yield rule
        pairs = (f"{row[at]:>{widths[at]}} {row[at + 1]:>{widths[at + 1]}}" for at in (1, 3, 5))
        yield "  ".join([row[0].ljust(columns[0]), *pairs, row[7]]).rstrip()


def ends(runs: Iterable[Made], step: int) -> str:
    """How many runs there are and in which states they are, the most frequent first."""
    states: dict = {}
    for run in runs:
        said = f"still running at step {step}" if run.state == "running" else run.state
        states[said] = states.get(said, 0) + 1
    ordered = sorted(states.items(), key=lambda pair: -pair[1])
    total = sum(states.values())
    if len(ordered) == 1:
        return f"{total} run{'s' if total > 1 else ''}: {ordered[0][0]}"
    return f"{total} runs: " + ", ".join(f"{count} {said}" for said, count in ordered)


def never_called(covered: Covered, names: Demangler) -> Iterator[str]:
    """The functions that were never executed, if they are few."""
    found = [(file, one) for file in covered.files for one in file.in_order() if not one.is_executed]
    if not 0 < len(found) <= MOST_NAMED:
        return
    names.learn(one.name for _, one in found)
    yield "never executed:"
    for file, function in found:
        yield f"  {plain(names.name(function.name))} ({plain(file.name)}:{function.first})"


def text_of(covered: Covered, names: Demangler, _, runs: List[Made], step: int) -> str:
    lines = [ends(runs, step), *never_called(covered, names), "", *table([*rows(covered)])]
    if covered.placeless:
        lines += ["", f"{covered.placeless} instruction{'s' if covered.placeless > 1 else ''} without a source line: not counted"]
    return "".join(f"{line}\n" for line in lines)
