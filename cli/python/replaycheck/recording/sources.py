"""What a recording has of source files: the lines around those that its traces name."""
from __future__ import annotations

import os
import stat
from typing import Dict, Iterable, List, Optional, Tuple

from replaycheck.places import Place

AROUND = 20  # lines before and after each line that a trace names
MOST_READ = 1 << 23  # bytes of a source file
MOST_KEPT = 1 << 19  # characters of all lines
LONGEST_LINE = 500
# A program's file says which paths are its sources. Only what is named as a source is read, so that no other file gets into a recording.
SUFFIXES = (".c", ".h", ".s", ".inc", ".cc", ".cpp", ".cxx", ".c++", ".hh", ".hpp", ".hxx", ".ipp", ".tcc", ".rs", ".zig", ".ads",
            ".adb")


class Sources:
    """Source files by their paths in the debug information of a program's file. `numbers` has the number of each one."""

    def __init__(self, program: str):
        self.folder = os.path.dirname(program)
        self.numbers: Dict[str, int] = {}
        self.names: List[str] = []
        self.wanted: List[Dict[int, None]] = []

    def add(self, place: Place) -> Tuple[int, int]:
        """Wants the lines around a place. Returns the number of its file, and the line."""
        number = self.numbers.setdefault(place.path, len(self.names))
        if number == len(self.names):
            self.names.append(place.file)
            self.wanted.append({})
        self.wanted[number][place.line] = None
        return number, place.line

    def kept(self) -> List[dict]:
        """Of each file its name, and its lines as pieces: the number of the first line, and the lines. A file that isn't found, and what
        there is no room for, has none."""
        room, found = MOST_KEPT, []
        for path, number in self.numbers.items():
            rows = self.lines(path)
            pieces: List[list] = []
            for at in around(self.wanted[number], len(rows)):
                line = rows[at - 1][:LONGEST_LINE]
                if len(line) > room:
                    break
                room -= len(line)
                if pieces and pieces[-1][0] + len(pieces[-1][1]) == at:
                    pieces[-1][1].append(line)
                else:
                    pieces.append([at, [line]])
            found.append({"name": self.names[number], "pieces": pieces})
        return found

    def lines(self, path: str) -> List[str]:
        """The lines of a source file, from the first place that has it: its path, the same below the program's folder, or its name
        there."""
        if not path.lower().endswith(SUFFIXES):
            return []
        for place in (path, os.path.join(self.folder, path), os.path.join(self.folder, os.path.basename(path))):
            text = read(place)
            if text is not None:
                return text.split("\n")
        return []


def around(lines: Iterable[int], count: int) -> List[int]:
    """The numbers of the lines around some, of a file of this number of lines."""
    return sorted({at for line in lines for at in range(max(1, line - AROUND), min(count, line + AROUND) + 1)})


def read(path: str) -> Optional[str]:
    """The text of a plain file that isn't too long; None where there is none."""
    try:
        found = os.stat(path)
        if not stat.S_ISREG(found.st_mode) or found.st_size > MOST_READ:
            return None
        with open(path, "rb") as file:
            return file.read(MOST_READ).decode("utf-8", "replace")
    except (OSError, ValueError):
        return None
