"""The folder of a search: the queue, and the findings with their inputs, sessions and reports."""
from __future__ import annotations

import contextlib
import fcntl
import os
import re
from dataclasses import dataclass
from typing import Iterator, List, Optional, Tuple

from replaycheck.endings import Fault
from replaycheck.guest.lines import shown_name
from replaycheck.sessions import Session

from .entries import QUEUE, files_in, name_of_seed, read, write
from .tries import LONGEST, span

FINDINGS, LOCK = "findings", ".replaycheck-search.lock"
FINDING = re.compile(r"([0-9]{2,6})\.text")
TRIES = re.compile(r"tries ([0-9]+)")  # a line of it
SEED = ",orig:"
MOST_SEARCHES = 1000  # in one folder


@dataclass
class Finding:
    """A finding of a search: its number, its text, the address at which it is reported, its input, and the number of the try that found it,
    if that is known."""

    number: int
    text: str
    address: str
    content: bytes
    tries: Optional[int]

    @property
    def name(self) -> str:
        return f"{self.number:02}"

    @property
    def more(self) -> List[str]:
        """What its file has after its text."""
        return [*filter(None, [self.address]), *([] if self.tries is None else [f"tries {self.tries}"])]


class Folder:
    """The folder in which a search works: `path` itself, or where another search does that, the first of its folders 2, 3 .. in which
    none does. `lock` is an open file, locked as long as the search runs."""

    def __init__(self, path: str):
        self.path = path.rstrip("/") or "/"
        names = ("", *map(str, range(2, MOST_SEARCHES)))
        found = next(filter(None, map(self.locked, names)), None)
        if found is None:
            raise Fault(f"{shown_name(path)}: {MOST_SEARCHES - 1} searches work in this folder")
        self.own, self.lock = found
        for name in (QUEUE, FINDINGS):
            os.makedirs(os.path.join(self.own, name), exist_ok=True)

    def locked(self, name: str) -> Optional[Tuple[str, int]]:
        """A folder and its lock, if no other search has that."""
        folder = os.path.join(self.path, name) if name else self.path
        os.makedirs(folder, exist_ok=True)
        number = os.open(os.path.join(folder, LOCK), os.O_RDWR | os.O_CREAT, 0o666)
        try:
            fcntl.flock(number, fcntl.LOCK_EX | fcntl.LOCK_NB)
        except BlockingIOError:
            os.close(number)
            return None
        except OSError as fault:
            os.close(number)
            raise Fault(f"{shown_name(folder)}: it can't be locked: {fault.strerror}") from None
        return folder, number

    @property
    def queue(self) -> str:
        return os.path.join(self.own, QUEUE)

    def finding(self, name: str) -> str:
        return os.path.join(self.own, FINDINGS, name)

    # ---- the queue

    def seeds(self, most: int) -> List[Tuple[str, bytes]]:
        """The seeds that an earlier search in this folder began with."""
        names = [name for name, _ in files_in(self.queue) if SEED in name]
        found = ((name.partition(SEED)[2], read(os.path.join(self.queue, name), most)) for name in names)
        return [(name, content) for name, content in found if content is not None]

    def add_seeds(self, seeds: List[Tuple[str, bytes]], most: int) -> Tuple[int, int]:
        """Adds seeds that aren't in the queue. Returns the number of the first of them, and that of the next file."""
        numbers, known = [-1], set()
        for name, number in files_in(self.queue):
            numbers.append(-1 if number is None else number)
            known.add(read(os.path.join(self.queue, name), most))
        first = following = max(numbers) + 1
        for name, content in seeds:
            if content not in known:
                write(self.queue, name_of_seed(following, name or "empty"), content)
                following += 1
        return first, following

    # ---- findings

    def findings(self) -> Iterator[Finding]:
        """The findings that an earlier search has written: those that have all their files."""
        for name in sorted(os.listdir(os.path.join(self.own, FINDINGS))):
            found = FINDING.fullmatch(name)
            text = read(self.finding(name), 1 << 16) if found else None
            content = read(self.finding(f"{found[1]}.input"), 1 << 20) if found and text else None
            if found and text and content is not None:
                line, *more = text.decode("utf-8", "surrogateescape").rstrip("\n").split("\n")
                counts = [TRIES.fullmatch(other) for other in more]
                address = more[0] if more and not counts[0] else ""
                yield Finding(int(found[1]), line, address, content, next((int(count[1]) for count in counts if count), None))

    def write(self, finding: Finding, lines: List[str], report: List[str]):
        """Writes a finding. Its text goes first, if it has one, and comes last: what has none isn't whole, and is found again."""
        with contextlib.suppress(FileNotFoundError):
            os.unlink(self.finding(f"{finding.name}.text"))
        parts = {"input": finding.content, "session": text_of(lines), "report": text_of(report),
                "text": text_of([finding.text, *finding.more])}
        for suffix, content in parts.items():
            write(os.path.join(self.own, FINDINGS), f"{finding.name}.{suffix}", content)


def text_of(lines: List[str]) -> bytes:
    return "".join(f"{line}\n" for line in lines).encode("utf-8", "surrogateescape")


def session_lines(seed: bytes, content: bytes, step: int) -> List[str]:
    """The lines of a session that make an input of the first seed, and report."""
    if len(content) <= LONGEST:
        lines = ["bytes is " + content.hex() if content else "bytes is"] if content != seed else []
    else:
        more = content[len(seed):]
        lines = [*(f"input append {byte}" for byte in more), *(["input cut"] * (len(seed) - len(content)))]
        whole = (seed + more)[:len(content)]
        for at in range(0, len(content), LONGEST):
            was, part = whole[at:at + LONGEST], content[at:at + LONGEST]
            if part != was:
                first, last = span(was, part)
                lines.append(f"bytes {at + first} {part[first:last].hex()}")
    return [*lines, f"goto {step}", "report"]


def report_of(path: str, options, step: int) -> List[str]:
    """The report of a run on an input, asked of a session of its own."""
    session = Session(options.file, path, options.supp, command="look", isa=options.isa, regions=options.regions, limit=options.limit)
    lines = session.report_at(step)
    session.end()
    return lines
