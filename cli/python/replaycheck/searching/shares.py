"""Shares of a search's runs: what one kind of work may use at most."""
from __future__ import annotations

import contextlib
from typing import Callable

PART = 8  # a share is one of this number of runs


class Share:
    """The runs that one kind of work has used, of those that `runs` counts."""

    def __init__(self, runs: Callable[[], int]):
        self.runs, self.used = runs, 0

    @property
    def has_room(self) -> bool:
        return self.used * PART <= self.runs()

    @contextlib.contextmanager
    def work(self):
        """Counts the runs of a piece of work."""
        before = self.runs()
        try:
            yield
        finally:
            self.used += self.runs() - before
