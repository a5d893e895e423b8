"""Which errors, leaks and stops a search has found, or which lines of a goal, that no seed has."""
from __future__ import annotations

from typing import Dict, List, Optional, Set, Tuple

from replaycheck.exploring.outcomes import Outcome, Part


MOST_STATUSES = 64  # exit statuses, each of which is a new outcome
EXITED = b"exited "  # how a state begins that has a status


class Outcomes:
    """The outcomes of a search's runs. `texts` has the text of each by its number."""

    def __init__(self, goal: Optional[bytes]):
        self.goal = goal
        self.texts: List[bytes] = []
        self.numbers: Dict[bytes, int] = {}
        self.statuses: Set[bytes] = set()
        self.others: Set[bytes] = set()  # what outcomes are beside their states

    def take(self, text: bytes) -> Tuple[int, bool]:
        """Returns the number of an outcome, and whether it is new. One with another exit status isn't, where there are many: some programs
        exit with what they have computed."""
        if text in self.numbers:
            return self.numbers[text], False
        number = self.numbers[text] = len(self.texts)
        self.texts.append(text)
        state, _, others = text.partition(b"\n")
        is_one_of_many = (state.startswith(EXITED) and state not in self.statuses and len(self.statuses) >= MOST_STATUSES
                          and (self.goal is None or not state.startswith(self.goal)))
        if state.startswith(EXITED) and not is_one_of_many:
            self.statuses.add(state)
        is_new = not is_one_of_many or others not in self.others
        self.others.add(others)
        return number, is_new


class Nothing:
    """An outcome without anything, beside which all of another one is new."""

    parts, state = (), ""


def parts_of(outcome: Outcome, goal: Optional[bytes]) -> List[Part]:
    """What of an outcome may be a finding: its errors, leaks and stop, the worst first; or its first line of a goal."""
    if goal is None:
        return outcome.news(Nothing)
    lines = (line for line in outcome.lines if line.encode("utf-8", "surrogateescape").startswith(goal))
    return [Part(line) for line in list(lines)[:1]]


class News:
    """The findings that are known: those of seeds, those of a folder in which the search continues, and those that were reported."""

    def __init__(self, goal: Optional[bytes], found: List[str]):
        self.goal = goal
        self.known: Set[str] = set(found)
        self.parts: Dict[int, List[Part]] = {}

    def learn(self, number: int, text: bytes) -> List[Part]:
        """Keeps what an outcome may have found. Returns it."""
        if number not in self.parts:
            self.parts[number] = parts_of(Outcome(number, text), self.goal)
        return self.parts[number]

    def skip(self, number: int, text: bytes):
        """Takes what an outcome has as known, as a seed has it."""
        self.known.update(part.text for part in self.learn(number, text))

    def new(self, number: int, text: bytes) -> List[Part]:
        """What an outcome has that wasn't known. It is known then."""
        found = [part for part in self.learn(number, text) if part.text not in self.known]
        self.known.update(part.text for part in found)
        return found

    def has(self, number: int, finding: str) -> bool:
        """Whether an outcome has a finding."""
        return any(part.text == finding for part in self.parts.get(number, ()))
