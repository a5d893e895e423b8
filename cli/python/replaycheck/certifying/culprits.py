"""The bytes that a `not the same` comes from, found by asking again with fewer of those that are any: a set of which none can be left out,
or if the program doesn't take as many ranges, ranges that can't be shorter."""
from __future__ import annotations

import re
from collections.abc import Callable
from typing import NamedTuple

NOT_THE_SAME = re.compile(r"not the same for any (.*?): .*?\bat step (\d+)\b")
INPUT, MEMORY = "input", "memory"
REJECTED = 2  # the status for a command line that the program rejects


class Span(NamedTuple):
    """Bytes of the input, or of memory: the first, and the place after the last."""

    kind: str
    begin: int
    end: int

    @property
    def word(self) -> str:
        """The option that makes them any."""
        return f"--any={self.begin}..{self.end - 1}" if self.kind == INPUT else f"--any-memory=0x{self.begin:08x}..0x{self.end:08x}"

    @property
    def text(self) -> str:
        if self.kind == MEMORY:
            return f"0x{self.begin:08x}..0x{self.end:08x}"
        return f"{self.begin}..{self.end - 1}" if self.end - self.begin > 1 else f"{self.begin}"


def spans_of(text: str) -> list[Span]:
    """Returns the bytes that a line names, such as `0..1, 5, memory 0x00010100..0x00010110`."""
    found = []
    for part in text.split(", "):
        first, _, last = part.removeprefix("memory ").partition("..")
        if part.startswith("memory "):
            found.append(Span(MEMORY, int(first, 16), int(last, 16)))
        else:
            found.append(Span(INPUT, int(first), int(last or first) + 1))
    return sorted(found)


def size(spans: list[Span]) -> int:
    return sum(span.end - span.begin for span in spans)


def front(spans: list[Span], count: int) -> list[Span]:
    """Returns the first bytes of some spans."""
    found = []
    for span in spans:
        taken = min(count, span.end - span.begin)
        if taken > 0:
            found.append(span._replace(end=span.begin + taken))
        count -= taken
    return found


def last(spans: list[Span]) -> Span:
    """Returns the last byte of some spans."""
    return spans[-1]._replace(begin=spans[-1].end - 1)


def joined(spans: list[Span]) -> list[Span]:
    """Returns spans in order, those that touch as one."""
    found: list[Span] = []
    for span in sorted(spans):
        if found and found[-1].kind == span.kind and found[-1].end == span.begin:
            found[-1] = found[-1]._replace(end=span.end)
        else:
            found.append(span)
    return found


def needed(spans: list[Span], is_not_the_same: Callable[[list[Span]], bool]) -> list[Span]:
    """Returns the bytes of a first set that is enough and of which each byte is needed: the last of the shortest front that is enough,
    beside it the last of the shortest front that is enough then, and so on."""
    found: list[Span] = []
    rest = spans
    while rest and not (found and is_not_the_same(joined(found))):
        least, most = 0, size(rest)
        while most - least > 1:
            middle = (least + most) // 2
            least, most = (least, middle) if is_not_the_same(joined(found + front(rest, middle))) else (middle, most)
        rest = front(rest, most)
        found.append(last(rest))
        rest = front(rest, most - 1)
    return joined(found)


def fewest(span: Span, is_enough: Callable[[Span], bool], cut: Callable[[Span, int], Span]) -> Span:
    """Returns the fewest bytes of a span that are enough, cut to a number of them."""
    least, most = 0, span.end - span.begin
    while most - least > 1:
        middle = (least + most) // 2
        least, most = (least, middle) if is_enough(cut(span, middle)) else (middle, most)
    return cut(span, most)


def shrunk(spans: list[Span], is_not_the_same: Callable[[list[Span]], bool]) -> list[Span]:
    """Returns spans that are enough, each as short as it can be beside the others: without its first byte or its last one it isn't."""
    found = list(spans)
    for span in spans:
        at = found.index(span)
        others = found[:at] + found[at + 1:]
        if others and is_not_the_same(others):
            found = others
            continue

        def is_enough(shorter: Span, others: list[Span] = others) -> bool:
            return is_not_the_same(sorted([*others, shorter]))

        found[at] = fewest(span, is_enough, lambda it, count: it._replace(end=it.begin + count))
        found[at] = fewest(found[at], is_enough, lambda it, count: it._replace(begin=it.end - count))
    return found


def told(spans: list[Span]) -> str:
    kinds = {kind: ", ".join(span.text for span in spans if span.kind == kind) for kind in (INPUT, MEMORY)}
    return "; ".join(f"{kind} {text}" for kind, text in kinds.items() if text)


class TooManyRanges(Exception):
    """The program doesn't take as many ranges."""


def bytes_line(lines: str, ask: Callable[[list[str]], tuple[int, str]]) -> str:
    """Returns the line on the bytes that an answer of the program comes from; nothing where it isn't `not the same`. `ask` returns the
    status and the lines of the program with options for the bytes and the step."""
    answer = NOT_THE_SAME.match(lines)
    if not answer:
        return ""
    step = int(answer[2])

    def is_not_the_same(spans: list[Span]) -> bool:
        status, printed = ask([*(span.word for span in spans), f"--step={step + 1}"])
        if status == REJECTED:
            raise TooManyRanges
        found = NOT_THE_SAME.match(printed)
        return found is not None and int(found[2]) == step

    spans = spans_of(answer[1])
    try:
        found = needed(spans, is_not_the_same)
    except TooManyRanges:
        found = shrunk(spans, is_not_the_same)
    return f" the bytes: {told(found)}\n"
