"""The front page of a site: a recording of a sweep, with a link to the page on which the program runs."""
from __future__ import annotations

import os
import pathlib
import subprocess
import sys

from replaycheck.endings import Fault
from replaycheck.guest.lines import shown_name

INDEX, LIVE = "index.html", "replaycheck.html"
# What each recording has, once: who made it, and the place of the link.
MADE_BY = b'<meta name="generator" content="replaycheck explore --html">'
PLACE = b'<span id="own"></span>'
LINK = f'<span id="own"><a href="{LIVE}">Now your own ELF</a></span>'.encode("ascii")
EXAMPLE = "station"


def linked(recording: bytes) -> bytes:
    """A recording with the link."""
    if recording.count(MADE_BY) != 1 or recording.count(PLACE) != 1:
        raise Fault("no page that `replaycheck explore --html` has written")
    return recording.replace(PLACE, LINK)


def front_of(path: str) -> bytes:
    """The front page of a recording in a file."""
    content = pathlib.Path(path).read_bytes()
    try:
        return linked(content)
    except Fault as fault:
        raise Fault(f"--recording {shown_name(path)}: {fault}") from None


def recorded(explore: pathlib.Path, folder: pathlib.Path, program: pathlib.Path) -> bytes:
    """The front page of the example, which is in a folder: `explore` is the tool, and `program` the one that runs."""
    words = [sys.executable, str(explore), f"{EXAMPLE}.elf", "--input", f"{EXAMPLE}.input", "--html", "-"]
    done = subprocess.run(words, cwd=folder, env={**os.environ, "REPLAYCHECK": str(program)}, stdin=subprocess.DEVNULL,
                          stdout=subprocess.PIPE, check=False)
    if done.returncode != 1:  # some edit leads to something new
        raise Fault(f"the recording of {EXAMPLE}: `replaycheck explore` ended with status {done.returncode}")
    return linked(done.stdout)
