"""How far a search is: a line on standard error, and the files that AFL's programs read."""
from __future__ import annotations

import os
import re
import sys
import time
from dataclasses import dataclass
from typing import Dict, List, Optional

from replaycheck.exploring.summary import counted

from .entries import write as write_file

STATS, PLOT = "fuzzer_stats", "plot_data"
PLOT_HEAD = ("# relative_time, cycles_done, cur_item, corpus_count, pending_total, pending_favs, map_size, saved_crashes, saved_hangs, "
             "max_depth, execs_per_sec, total_execs, edges_found\n")
NUMBERS = re.compile(r"id:([0-9]+),(?:src:([0-9]+))?")
WIDTH = 18  # of a key
BETWEEN = 5.0  # seconds between two writes of the files


@dataclass(frozen=True)
class Told:
    """What a worker has reported last: its runs, how many inputs of the queue it hasn't mutated, the place of the one at work, how often it
    has mutated each, and whether no run of all has ended."""

    runs: int = 0
    waiting: int = 0
    at: int = 0
    cycles: int = 0
    all_running: bool = True


class State:
    """The numbers of a search, as its workers have reported them. `jobs` is the number of workers. `reached` says what was executed."""

    def __init__(self, jobs: int, folder: Optional[str], command: List[str], reached):
        self.folder, self.command, self.reached = folder, command, reached
        self.told = [Told() for _ in range(jobs)]
        self.begun, self.begun_at = time.monotonic(), int(time.time())
        self.ended_at: Optional[float] = None
        self.news_at: Optional[float] = None
        self.finding_at: Optional[float] = None
        self.entries = self.new_entries = self.findings = self.cycles_at_news = 0
        self.depths: Dict[str, int] = {}  # of entries, by the numbers of their files
        self.shown_at = self.written_at = self.begun
        self.is_shown = False

    def add(self, name: str):
        """Adds an input of the queue, by the name of its file."""
        self.entries += 1
        found = NUMBERS.match(name)
        if found:
            self.depths[found[1]] = self.depths.get(found[2], 0) + 1

    def add_new(self, name: str):
        self.add(name)
        self.new_entries += 1
        self.news_at, self.cycles_at_news = time.monotonic(), self.cycles

    @property
    def depth(self) -> int:
        """The greatest number of inputs that are made of each other, as far as the names say."""
        return max(self.depths.values(), default=0)

    @property
    def runs(self) -> int:
        return sum(told.runs for told in self.told)

    @property
    def all_running(self) -> bool:
        return all(told.all_running for told in self.told)

    @property
    def now(self) -> float:
        """This moment, or that at which the workers had ended."""
        return time.monotonic() if self.ended_at is None else self.ended_at

    @property
    def seconds(self) -> float:
        return self.now - self.begun

    @property
    def rate(self) -> float:
        return self.runs / self.seconds if self.seconds > 0 else 0.0

    def line(self) -> str:
        parts = [f"search: {self.seconds:.0f} s", counted(self.runs, "try", "tries"), f"{self.rate:.0f} a second", f"queue {self.entries}"]
        if self.reached and self.reached.total:
            most = "at most " if self.reached.waiting else ""  # what the others reach isn't known yet
            parts.append(f"{most}{self.reached.total - self.reached.count} of {self.reached.total} instructions not reached")
        parts.append(counted(self.findings, "finding"))
        if self.news_at is not None:
            parts.append(f"the last news {self.now - self.news_at:.0f} s ago")
        return ", ".join(parts)

    def show(self):
        """Shows the line, every second, where standard error is a terminal."""
        now = time.monotonic()
        if now - self.shown_at >= 1 and sys.stderr.isatty():
            self.shown_at, self.is_shown = now, True
            sys.stderr.write(f"\r\x1b[K{self.line()}")
            sys.stderr.flush()

    def end(self):
        """Shows the line as the last one."""
        sys.stderr.write(f"{self.clearing()}{self.line()}\n")
        sys.stderr.flush()

    def clearing(self) -> str:
        return "\r\x1b[K" if self.is_shown else ""

    # ---- files

    def write(self, is_last=False):
        """Writes the files of a folder that is kept, now and then."""
        now = time.monotonic()
        if self.folder is None or not is_last and now - self.written_at < BETWEEN:
            return
        self.written_at = now
        write_file(self.folder, STATS, self.stats().encode("utf-8", "surrogateescape"))
        path = os.path.join(self.folder, PLOT)
        is_new = not os.path.exists(path)
        with open(path, "a", encoding="ascii") as file:
            file.write((PLOT_HEAD if is_new else "") + self.row())

    def wall(self, at: Optional[float]) -> int:
        """The time of day of a moment; 0 for none."""
        return 0 if at is None else int(self.begun_at + at - self.begun)

    @property
    def pending(self) -> int:
        return min(told.waiting for told in self.told)

    @property
    def cycles(self) -> int:
        return min(told.cycles for told in self.told)

    def cover(self) -> str:
        whole = self.reached.total if self.reached else 0
        return f"{100 * self.reached.count / whole:.2f}%" if whole else "0.00%"

    def stats(self) -> str:
        sides = self.reached.sides_count if self.reached else 0
        values = {
            "start_time": self.begun_at, "last_update": int(time.time()), "run_time": int(self.seconds), "fuzzer_pid": os.getpid(),
            "cycles_done": self.cycles, "cycles_wo_finds": self.cycles - self.cycles_at_news,
            "time_wo_finds": int(self.now - (self.news_at or self.begun)), "execs_done": self.runs, "execs_per_sec": f"{self.rate:.2f}",
            "corpus_count": self.entries, "corpus_found": self.new_entries, "max_depth": self.depth,
            "cur_item": self.told[0].at, "pending_favs": 0, "pending_total": self.pending, "bitmap_cvg": self.cover(),
            "saved_crashes": self.findings, "saved_hangs": 0, "last_find": self.wall(self.news_at),
            "last_crash": self.wall(self.finding_at), "last_hang": 0, "edges_found": sides,
            "afl_banner": "replaycheck", "afl_version": "replaycheck-search", "target_mode": "replaycheck",
            "command_line": " ".join(self.command).replace("\n", " ")}
        return "".join(f"{name:<{WIDTH}}: {value}\n" for name, value in values.items())

    def row(self) -> str:
        sides = self.reached.sides_count if self.reached else 0
        values = (int(self.seconds), self.cycles, self.told[0].at, self.entries, self.pending, 0, self.cover(), self.findings, 0,
                  self.depth, f"{self.rate:.2f}", self.runs, sides)
        return ", ".join(map(str, values)) + "\n"
