"""An edited run as a value: what edits have made of the input, the words, the marks, the options and the suppressions. The lines that lead
from one to another one take edits back, and begin another session with all of them."""
from __future__ import annotations

from dataclasses import dataclass, field, replace
from typing import Dict, FrozenSet, Iterator, List, Optional, Tuple

from replaycheck.sessions import MARKS

EDITS = ("input", "bytes", "patch", "patch16", *MARKS, "unmark", "option", "supp")
# The values of options that no line has changed.
USUAL = {"redzone": "16", "queue": "20000000", "callers": "12", "show": "definite,possible"}
MOST_GIVEN = 2000  # bytes of the input that one line has
HALF, BITS = 2, 16  # of half a word: bytes and bits
LOW = (1 << BITS) - 1
# The halves that patches have written at a multiple of 4, the one at the lower address first: None for one that none has written.
Halves = Tuple[Optional[int], Optional[int]]
UNPATCHED: Halves = (None, None)


@dataclass(frozen=True)
class Scenario:
    """What a session has after some edits. None of its values is changed: each edit makes another scenario."""

    input: bytes
    words: Dict[int, Halves] = field(default_factory=dict)
    marks: Tuple[str, ...] = ()
    options: Dict[str, str] = field(default_factory=dict)
    added: Tuple[str, ...] = ()  # suppressions after those of the file
    off: FrozenSet[int] = frozenset()

    def after(self, line: str) -> Scenario:
        """Returns the scenario after an edit that was accepted.

        # Errors

        `ValueError` or `IndexError` for any other line."""
        name, *words = line.split(" ")
        if name == "input":
            return replace(self, input=input_after(self.input, words))
        if name == "bytes":
            return replace(self, input=bytes_after(self.input, *words))
        if name == "patch":
            at, word = map(number, words)
            return replace(self, words=words_after(self.words, at, [word & LOW, word >> BITS]))
        if name == "patch16":
            at, half = map(number, words)
            return replace(self, words=words_after(self.words, at, [half]))
        if name in MARKS:
            return replace(self, marks=(*self.marks, line))
        if name == "unmark":
            index = number(words[0])
            return replace(self, marks=self.marks[:index] + self.marks[index + 1:])
        if name == "option":
            return replace(self, options={**self.options, words[0]: words[1]})
        if words[0] == "add":
            return replace(self, added=(*self.added, line.partition(" add ")[2]))
        switched = frozenset({number(words[1])})
        return replace(self, off=self.off | switched if words[0] == "off" else self.off - switched)

    def leads_to(self, other: Scenario) -> bool:
        """Whether lines lead from this scenario to another one: a suppression that was added can't be removed."""
        return other.added[:len(self.added)] == self.added

    def lines_to(self, other: Scenario, unedited: Dict[int, int]) -> Iterator[str]:
        """Yields lines that lead to another scenario. `unedited` has the words of the program's file where one was patched."""
        yield from input_lines(self.input, other.input)
        for at in dict.fromkeys((*self.words, *other.words)):
            had, wanted = self.words.get(at, UNPATCHED), other.words.get(at, UNPATCHED)
            if had != wanted:
                yield from patch_lines(at, had, wanted, unedited)
        same = 0
        while same < min(len(self.marks), len(other.marks)) and self.marks[same] == other.marks[same]:
            same += 1
        yield from (f"unmark {index}" for index in reversed(range(same, len(self.marks))))
        yield from other.marks[same:]
        for name, usual in USUAL.items():
            value = other.options.get(name, usual)
            if value != self.options.get(name, usual):
                yield f"option {name} {value}"
        yield from (f"supp add {suppression}" for suppression in other.added[len(self.added):])
        yield from (f"supp off {index}" for index in sorted(other.off - self.off))
        yield from (f"supp on {index}" for index in sorted(self.off - other.off))


def words_after(words: Dict[int, Halves], at: int, halves: List[int]) -> Dict[int, Halves]:
    """Returns words after halves were written from an address on.

    # Errors

    `ValueError` for an odd address, which no accepted line has."""
    if at % HALF:
        raise ValueError(at)
    after = dict(words)
    for place, half in zip(range(at, at + HALF * len(halves), HALF), halves):
        low, high = after.get(place & ~3, UNPATCHED)
        after[place & ~3] = (low, half) if place & HALF else (half, high)
    return after


def patch_lines(at: int, had: Halves, wanted: Halves, unedited: Dict[int, int]) -> Iterator[str]:
    """Yields the lines that make halves at a multiple of 4 those of another scenario. One that no patch has written there is as in the
    file. Where only one of the two was ever patched, that is a line for instructions of 16 bits."""
    first = (unedited[at] & LOW, unedited[at] >> BITS) if None in wanted else UNPATCHED
    low, high = (old if half is None and was is not None else half for half, was, old in zip(wanted, had, first))
    if low is not None and high is not None:
        yield f"patch 0x{at:x} 0x{high << BITS | low:08x}"
        return
    yield from (f"patch16 0x{at + HALF * place:x} 0x{half:04x}" for place, half in enumerate((low, high)) if half is not None)


def number(text: str) -> int:
    """Returns the number that a field of an accepted line is."""
    return int(text[2:], 16) if text.startswith("0x") else int(text)


def input_after(data: bytes, words: List[str]) -> bytes:
    """Returns an input after an edit of it."""
    if words[0] == "append":
        return data + bytes([number(words[1])])
    if words[0] == "cut":
        return data[:-1]
    at, byte = map(number, words)
    return data[:at] + bytes([byte]) + data[at + 1:]


def bytes_after(data: bytes, where: str, digits: str = "") -> bytes:
    """Returns an input after a line that gives bytes of it, or all of them."""
    given = bytes.fromhex(digits)
    if where == "is":
        return given
    at = number(where)
    return data[:at] + given + data[at + len(given):]


def input_lines(data: bytes, other: bytes) -> Iterator[str]:
    """Yields lines that lead from an input to another one."""
    common = min(len(data), len(other))
    yield from ("input cut" for _ in range(common, len(data)))
    for begin in range(0, common, MOST_GIVEN):
        end = min(begin + MOST_GIVEN, common)
        if data[begin:end] != other[begin:end]:
            places = [at for at in range(begin, end) if data[at] != other[at]]
            yield f"bytes {places[0]} {other[places[0]:places[-1] + 1].hex()}"
    yield from (f"input append {byte}" for byte in other[common:])
