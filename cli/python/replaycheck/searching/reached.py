"""What the runs of a queue's inputs execute, as `replaycheck look` says of each."""
from __future__ import annotations

import os
from collections import deque
from typing import Deque, Optional

from replaycheck.covering.runs import Sides, run
from replaycheck.guest.code import Code
from replaycheck.sessions import Session

from .entries import read
from .tries import LONGEST, MOST_LINES


class Reached:
    """The instructions that inputs of a folder have reached. `total` counts the instructions, and `count` those that were reached. An input
    that fits into a line is looked at in one session with others, any other one in a session of its own."""

    def __init__(self, options, code: Code, folder: str):
        self.options, self.code, self.folder = options, code, folder
        self.sides = Sides(code.ranges, code.unit)
        self.waiting: Deque[str] = deque()
        self.addresses = {instruction.address for instruction in code.instructions([])}
        self.count = self.sides_count = 0
        self.session: Optional[Session] = None
        self.lines = 0

    @property
    def total(self) -> int:
        return len(self.addresses)

    def add(self, name: str):
        self.waiting.append(name)

    def look(self) -> bool:
        """Looks at the run of one input. Returns whether there was one."""
        if not self.waiting:
            return False
        path = os.path.join(self.folder, self.waiting.popleft())
        content = read(path, self.options.max_len)
        if content is not None and len(content) <= LONGEST:
            self.look_at(content)
        elif content is not None:
            run(self.options.file, path, self.options, self.sides)
        found = self.sides.all()
        self.count = sum(address in self.addresses for address in found)
        self.sides_count = sum(bin(sides).count("1") for sides in found.values())
        return True

    def look_at(self, content: bytes):
        """Looks at the run of an input that fits into a line."""
        if self.session is not None and self.lines >= MOST_LINES:
            self.end()
        if self.session is None:
            options = self.options
            self.session = Session(options.file, command="look", isa=options.isa, regions=options.regions, limit=options.limit)
            self.lines = 1
            self.session.accepted(f"goto {options.step}")
        self.lines += 1
        looks = [(begin, f"look sides 0x{begin:x} {self.sides.length(begin)}") for begin in self.sides.parts]
        self.session.accepted(f"bytes is {content.hex()}" if content else "bytes is")
        for begin, line in looks:
            self.sides.add(begin, self.session.accepted(line)[0].removeprefix("sides "))

    def look_at_all(self):
        while self.look():
            pass
        self.end()

    def end(self):
        """Ends the session, if there is one."""
        if self.session is not None:
            self.session.end()
        self.session = None
