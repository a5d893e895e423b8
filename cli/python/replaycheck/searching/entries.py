"""The inputs of a search's queue, and the files that it has of them, under the names that AFL gives."""
from __future__ import annotations

import os
import re
from typing import Dict, Iterator, List, Optional, Set, Tuple

from replaycheck.endings import undisturbed
from replaycheck.whole_files import rights_of_new, write_whole

QUEUE = "queue"
NUMBERED = re.compile(r"id:([0-9]{6,9})(?:,.*)?")
PLAIN = re.compile(r"[^A-Za-z0-9._+=-]")
LONGEST_NAME = 80  # of a seed, within the name of a file
RARELY = 4  # an entry without sides of its own gets one of this number of turns


class Entry:
    """An input of the queue. `number` is that of its file. The compares of one that `is_new` are asked for before any other one is mutated;
    those of one that `is_own` when it is first mutated, and those of any other one, which another worker asks for, when it is mutated
    again. `has_sides` is whether it had sides that no input before it had. `taken` counts how often it was mutated; `swept` and `placed`
    are the first byte whose values, and the first place whose tokens, weren't tried; `guards` are compares that mutated inputs have to keep
    equal, and `end` is an offset soon after the last byte that a compare depends on."""

    def __init__(self, content: bytes, number: Optional[int], is_new: bool, is_own=True):
        self.content, self.number, self.is_new, self.is_own, self.is_asked = content, number, is_new, is_own, False
        self.has_sides = True
        self.taken = self.swept = self.placed = 0
        self.guards: List = []
        self.end: Optional[int] = None

    @property
    def rank(self) -> int:
        """The place in the order in which entries are mutated: the least comes first."""
        return self.taken * (1 if self.has_sides else RARELY)


def made_of(entry: Entry, how: str) -> str:
    """How an input was made of an entry of this search's queue. The file of one that the user has put there may have no number."""
    return f"op:{how}" if entry.number is None else f"src:{entry.number:06},op:{how}"


def taken_from(folder: str, number: Optional[int]) -> str:
    """Where an input of another search comes from: the folder that its queue is in, or the one that all searches are in."""
    return f"sync:{PLAIN.sub('_', folder) or 'main'}" + (f",src:{number:06}" if number is not None else "")


def name_of(number: int, origin: str, has_sides: bool) -> str:
    """The name of a file of the queue."""
    return f"id:{number:06},{origin}{',+cov' if has_sides else ''}"


def name_of_seed(number: int, name: str) -> str:
    plain = PLAIN.sub("_", os.path.basename(name).encode("utf-8", "surrogateescape").decode("ascii", "replace"))
    return f"id:{number:06},orig:{plain[:LONGEST_NAME]}"


def files_in(folder: str) -> Iterator[Tuple[str, Optional[int]]]:
    """The names of the files of a queue in order, each with its number if it has one. Files that are being written begin with a dot."""
    try:
        names = sorted(os.listdir(folder), key=os.fsencode)
    except FileNotFoundError:
        return
    for name in names:
        if not name.startswith("."):
            found = NUMBERED.fullmatch(name)
            yield name, int(found[1]) if found else None


def read(path: str, most: int) -> Optional[bytes]:
    """The first bytes of a plain file, None if it is gone or no plain file."""
    try:
        if not os.path.isfile(path):
            return None
        with open(path, "rb") as file:
            return file.read(most)
    except FileNotFoundError:
        return None


def write(folder: str, name: str, content: bytes):
    """Writes a file of a search. A signal waits for that, so that nothing else is left."""
    undisturbed(lambda: write_whole(os.path.join(folder, name), content, rights_of_new()))


class Folders:
    """The queues of all searches in a folder: that of this search, and those of others, whose new files are read."""

    def __init__(self, path: str, own: str, most: int):
        self.path, self.own, self.most = path, os.path.join(own, QUEUE), most
        self.seen: Dict[str, Set[str]] = {}

    def name(self, queue: str) -> str:
        """What another search's queue is called: by its folder, empty for that which all searches are in."""
        folder = os.path.dirname(queue)
        return "" if folder == self.path else os.path.basename(folder)

    def queues(self) -> List[str]:
        """The folders of queues: this search's first."""
        found = [os.path.join(self.path, QUEUE)]
        found += sorted((os.path.join(folder.path, QUEUE) for folder in os.scandir(self.path) if folder.is_dir()), key=os.fsencode)
        return [self.own, *(queue for queue in found if os.path.isdir(queue) and queue != self.own)]

    def new(self) -> Iterator[Tuple[str, Optional[int], bytes]]:
        """The files that have come: the folder of each, its number there, and its content."""
        for folder in self.queues():
            try:
                yield from self.new_in(folder)
            except PermissionError:
                if folder == self.own:
                    raise

    def new_in(self, folder: str) -> Iterator[Tuple[str, Optional[int], bytes]]:
        seen = self.seen.setdefault(folder, set())
        for name, number in files_in(folder):
            if name not in seen:
                seen.add(name)
                content = read(os.path.join(folder, name), self.most)
                if content is not None:
                    yield folder, number, content
