"""The inputs that a search begins with."""
from __future__ import annotations

import os
import stat
from typing import Iterator, List, Tuple

from replaycheck.endings import Fault, naming
from replaycheck.guest.lines import shown_name

from .entries import QUEUE, files_in


def paths_of(name: str) -> Iterator[str]:
    """The files that an argument names: itself, or all plain files of a folder, in the order of their names."""
    if not os.path.isdir(name):
        yield name
        return
    names = [file for file, _ in files_in(name)]
    if os.path.isdir(os.path.join(name, QUEUE)):  # the folder of a whole search
        yield from paths_of(os.path.join(name, QUEUE))
        return
    for file in names:
        path = os.path.join(name, file)
        if os.path.exists(path) and stat.S_ISREG(os.stat(path).st_mode):  # a link may lead nowhere
            yield path


def seeds(names: List[str], most: int, say) -> List[Tuple[str, bytes]]:
    """The seeds that arguments name: each content once, with the name of its first file. `say` gets a line on each file that is cut."""
    found, known = [], set()
    for path in (path for name in names for path in paths_of(name)):
        with naming(path), open(path, "rb") as file:
            content = file.read(most + 1)
        if len(content) > most:
            say(f"{shown_name(path)}: it is longer than --max-len: the first {most} bytes of it are used")
            content = content[:most]
        if content not in known:
            known.add(content)
            found.append((path, content))
    if names and not found:
        raise Fault(f"--input: no file in {', '.join(map(shown_name, names))}")
    return found or [("", b"")]
