"""Rows of `test-lanes` on the gate, in a small repository with stand-ins for `rt` and for the gate's checks."""
import hashlib
import os
import pathlib
import shutil
import subprocess
import tempfile
import time
from collections.abc import Callable
from typing import Any

import lanes
from lanes import GATE, TOP, GateCheck
from packaging.source import PROGRAM
from rows import SIGNALS, Rows

LISTED = str(PROGRAM.relative_to(TOP))
PROVING = [it for it in GATE if it.proves]
# The others, in the order in which they begin.
REST = sorted((it for it in GATE if not it.proves), key=lambda it: (it.is_alone, -it.seconds))
# A stand-in notes that it runs, and does what a script of its name says. There `await` waits for a file, for half a minute at most.
STAND_IN = """#!/bin/sh
room='{}' name=${{0##*/}}
await() {{ n=0; until [ -e "$room/$1" ]; do [ $((n += 1)) -lt 300 ] || exit 3; sleep 0.1; done; }}
echo "begin $name $*" >>"$room/noted"
. "$room/does/$name"
echo "end $name" >>"$room/noted"
"""
PASSES = "echo 1 passed, 0 failed"
BUILDS = f"sleep 0.05; mkdir -p {os.path.dirname(LISTED)}; echo $$ >{LISTED}; echo 5 passed, 0 failed"
# Two of these run at the same time: each waits until the other has begun.
MEETS = 'echo one $name; : >"$room/$name.met"; await {}.met; echo two $name >&2; ' + PASSES
# It starts a process that doesn't end by itself.
SLEEPS = 'sleep 77 & echo $! >"$room/$name.new" && mv "$room/$name.new" "$room/$name.pid"; wait'
# It says that it is at work, and waits until that is heard.
SAYS = "printf 'at work'; await heard; echo; "
DISAGREES = "ended with status {} and no count that agrees"
# What a check does, or none if it is missing, what it prints, how often it has passed and failed then, and what the gate says of it.
FAILING = [
    ("a check of which rows fail", "seq 100; echo 2 passed, 100 failed; exit 1",
     "".join(f"{it}\n" for it in range(1, 101)) + "2 passed, 100 failed\n", (2, 100), None),
    ("a count of failures with status 0", "echo 2 passed, 1 failed", "2 passed, 1 failed\n", (0, 1), DISAGREES.format(0)),
    ("no failure counted, and another status", "echo 2 passed, 0 failed; exit 3", "2 passed, 0 failed\n", (0, 1), DISAGREES.format(3)),
    ("no count, and no end of the line", "printf told", "told\n", (0, 1), DISAGREES.format(0)),
    ("an end by a signal", "echo 2 passed, 0 failed; kill -9 $$", "2 passed, 0 failed\n", (0, 1), DISAGREES.format(137)),
    ("a check that is missing", None, "", (0, 1), "no {}"),
]


def path_of(row: GateCheck) -> str:
    return row.line.split()[0]


def name_of(row: GateCheck) -> str:
    return os.path.basename(path_of(row))


def line_of(row: GateCheck, is_proving: bool = True) -> str:
    return (row.line if is_proving else row.without_proofs or row.line).replace("PROGRAM", LISTED)


def unlike(given: tuple[int, str], status: int, passed: int, failed: int) -> list[object]:
    """What a gate has given, if it isn't this status and a last line with these counts."""
    return [] if given[0] == status and given[1].endswith(f"\n{passed} passed, {failed} failed\n") else [*given]


def runs(pid: str) -> bool:
    """Whether a process runs: one that has ended and that its parent has not asked about yet does not."""
    try:
        return pathlib.Path("/proc", pid, "stat").read_text().rpartition(")")[2].split()[0] != "Z"
    except OSError:
        return False


def comes(is_so: Callable[[], bool]) -> bool:
    """Waits until something is so, for a minute at most."""
    until = time.monotonic() + 60
    while not is_so() and time.monotonic() < until:
        time.sleep(0.02)
    return is_so()


def ended(gate: subprocess.Popen[str]) -> str:
    """What a gate that has to end says on standard error. One that doesn't end within a minute is killed."""
    try:
        return gate.communicate(timeout=60)[1]
    except subprocess.TimeoutExpired:
        gate.kill()
        return gate.communicate()[1]


class Room:
    """The small repository, `top`. What the stand-ins note and wait for is beside it."""

    def __init__(self, folder: str) -> None:
        self.room, self.top = pathlib.Path(folder), pathlib.Path(folder, "repository")
        self.rt = self.room / "bin" / "rt"
        for path in ("tests/gate", "tests/lanes.py", "tests/support/proving.py"):
            self.copied(path)
        for path in (*(TOP / "cli/python/replaycheck").glob("**/*.py"), *(TOP / "build").glob("**/*.py")):
            self.copied(str(path.relative_to(TOP)))
        for path in {self.rt, *(self.top / path_of(it) for it in GATE)}:
            path.parent.mkdir(parents=True, exist_ok=True)
            path.write_text(STAND_IN.format(self.room))
            path.chmod(0o755)
        (self.top / ".gitignore").write_text("out/\n")
        who = ["-c", "user.name=it", "-c", "user.email=it@it", "-c", "commit.gpgsign=false"]
        for words in (["init", "-q", "-b", "it"], ["add", "."], [*who, "commit", "-q", "-m", "it"]):
            self.git(*words)

    def copied(self, path: str) -> None:
        (self.top / path).parent.mkdir(parents=True, exist_ok=True)
        shutil.copy(TOP / path, self.top / path)

    def git(self, *words: str) -> str:
        return subprocess.run(["git", "-C", self.top, *words], check=True, stdout=subprocess.PIPE, text=True).stdout

    def reset(self) -> None:
        """Forgets what the stand-ins have left. Each passes then, and the checkout has no change."""
        for path in (*self.room.glob("*.*"), self.room / "noted", self.room / "heard"):
            path.unlink(missing_ok=True)
        self.git("checkout", "-q", ".")
        shutil.rmtree(self.room / "does", ignore_errors=True)
        (self.room / "does").mkdir()
        for row in GATE:
            self.does(name_of(row), PASSES)
        self.does("rt", BUILDS)

    def does(self, name: str, script: str) -> None:
        (self.room / "does" / name).write_text(f"{script}\n")

    def noted(self) -> list[str]:
        return (self.room / "noted").read_text().splitlines()

    def begun(self) -> list[str]:
        return [it.removeprefix("begin ").rstrip() for it in self.noted() if it.startswith("begin ")]

    def gate(self, *words: str, stdout: Any = subprocess.PIPE, **how: Any) -> subprocess.Popen[str]:
        env = {**os.environ, "PATH": f"{self.rt.parent}:{os.environ['PATH']}"}
        return subprocess.Popen([self.top / "tests/gate", *words], env=env, text=True, stdout=stdout, **how)

    def run(self, *words: str, **how: Any) -> tuple[int, str]:
        """The status of the gate, and what it prints."""
        with self.gate(*words, **how) as gate:
            printed = gate.communicate()[0]
        return gate.returncode, printed

    def sleeping(self) -> list[str]:
        return [it.read_text().strip() for it in self.room.glob("*.pid")]


def try_passing(rows: Rows, room: Room) -> None:
    """A gate on one processor, of which each check passes."""
    room.reset()
    first = min(os.sched_getaffinity(0))
    given = room.run(preexec_fn=lambda: os.sched_setaffinity(0, {first}))
    wanted = ["rt ci", *(line_of(it).replace(path_of(it), name_of(it)) for it in PROVING + REST)]
    rows.row("gate: rt ci, those that prove, and the others by their seconds", [] if room.begun() == wanted else room.begun())
    rows.row("gate: all that pass", unlike(given, 0, 5 + len(GATE), 0))
    heads = [it.removeprefix("== ") for it in given[1].splitlines() if it.startswith("== ")]
    rows.row("gate: each command line", [] if heads == [line_of(it) for it in PROVING + REST] else heads)
    program, passed, left = room.top / LISTED, room.top / "out/passed", room.top / "out/left-by-gate"
    wanted = [room.git("rev-parse", "HEAD").strip(), hashlib.sha256(program.read_bytes()).hexdigest()]
    rows.row("gate: what has passed", [] if passed.exists() and passed.read_text().split() == wanted else wanted)
    is_before = left.exists() and left.stat().st_mtime_ns < program.stat().st_mtime_ns
    rows.row("gate: when it began", [] if is_before else [left])


def try_without_proofs(rows: Rows, room: Room) -> None:
    """A gate without proofs, of which the first two checks wait for each other."""
    room.reset()
    pair = REST[:2]
    together = lanes.processors() > 1
    for row in REST[2:] if together else ():
        room.does(name_of(row), f"sleep 0.2; {PASSES}")
    for row, other in zip(pair, reversed(pair)) if together else ():
        room.does(name_of(row), MEETS.format(name_of(other)))
    given = room.run("--without-proofs")
    wanted = sorted(line_of(it, False).replace(path_of(it), name_of(it)) for it in REST)
    rows.row("gate without proofs: its checks", [] if sorted(room.begun()) == wanted else room.begun())
    rows.row("gate without proofs: no release", ["out/passed"] if (room.top / "out/passed").exists() else [])
    if not together:
        rows.left_out("gate: side by side", "second processor")
        return
    rows.row("gate: side by side", unlike(given, 0, len(REST), 0))
    pieces = [f"== {line_of(it, False)}\none {name_of(it)}\ntwo {name_of(it)}\n1 passed, 0 failed\n" for it in pair]
    rows.row("gate: each output in one piece", [given[1] for it in pieces if it not in given[1]])
    counts = [0]
    for line in room.noted():
        counts.append(counts[-1] + (1 if line.startswith("begin ") else -1))
    rows.row("gate: as many as there are processors", [] if 2 <= max(counts) <= lanes.processors() else [max(counts)])


def try_failing(rows: Rows, room: Room) -> None:
    """A gate of which some checks fail, one that proves among them."""
    room.reset()
    (room.top / "out/passed").write_text("it\n")
    passed, failed, pieces = 5 + len(GATE), 0, []
    chosen = [it for it in REST if name_of(it) != name_of(PROVING[0])][-len(FAILING):]
    for row, (label, script, prints, counts, says) in [*zip(chosen, FAILING), (PROVING[1], FAILING[2])]:
        if script is None:
            (room.top / path_of(row)).unlink()
        else:
            room.does(name_of(row), script)
        passed, failed = passed - 1 + counts[0], failed + counts[1]
        words = f"gate: {line_of(row)} {says}\n" if script else f"gate: {says}\n".format(path_of(row))
        pieces.append((label if row in chosen else f"{label}, of one that proves", f"== {line_of(row)}\n{prints}{words if says else ''}"))
    given = room.run()
    for label, piece in pieces:
        rows.row(f"gate: {label}", [] if given[1].count(piece) == 1 else [given[1]])
    rows.row("gate: its count of failures", unlike(given, 1, passed, failed))
    rows.row("gate: what had passed before is no release", ["out/passed"] if (room.top / "out/passed").exists() else [])


def try_ci(rows: Rows, room: Room) -> None:
    """An `rt ci` that fails, one that prints at work, and none."""
    room.reset()
    left = room.top / "out/left-by-gate"
    left.touch()
    before = left.stat().st_mtime_ns
    room.does("rt", "echo told; exit 2")
    given = room.run()
    wanted = f"told\ngate: rt ci {DISAGREES.format(2)}\ngate: rt ci has built no program\n== {line_of(PROVING[0])}\n"
    rows.row("gate: an rt ci that fails", unlike(given, 1, len(GATE), 2) or ([] if given[1].startswith(wanted) else [given[1]]))
    rows.row("gate: what has failed is no release", ["out/passed"] if (room.top / "out/passed").exists() else [])
    rows.row("gate: no libraries of an rt ci that fails", [] if left.stat().st_mtime_ns == before else [left])
    for label, name, script in (("rt ci", "rt", BUILDS), ("a check that proves", name_of(PROVING[1]), PASSES)):
        room.reset()
        room.does(name, SAYS + script)
        printed = ""
        with room.gate() as gate:
            while "at work" not in printed and (part := gate.stdout.read(1) if gate.stdout else ""):
                printed += part
            (room.room / "heard").touch()
            printed += gate.communicate()[0]
        rows.row(f"gate: {label} as it prints", [] if gate.returncode == 0 and printed.count("at work\n") == 1 else [printed])


def try_ending(rows: Rows, room: Room) -> None:
    """A gate that a signal ends, or that can't print, ends with all that it has started."""
    for number in SIGNALS:
        for label, names in (("rt ci", ["rt"]), ("checks", [name_of(it) for it in REST[:lanes.processors()]])):
            room.reset()
            for name in names:
                room.does(name, SLEEPS)
            with room.gate() as gate:
                is_begun = comes(lambda: len(room.sleeping()) == len(names) or gate.poll() is not None)
                gate.send_signal(number)
                ended(gate)
            is_ended = comes(lambda: not any(map(runs, room.sleeping())))
            rows.row(f"gate: {number.name} while {label} runs", [] if (gate.returncode, is_begun, is_ended) == (-number, True, True) else
                     [gate.returncode, is_begun, is_ended])
    if lanes.processors() < 2:
        return
    for label, is_said in (("a full disk", True), ("a full disk, on which errors are, too", False)):
        room.reset()
        room.does(name_of(REST[0]), f"await {name_of(REST[1])}.pid; {PASSES}")
        room.does(name_of(REST[1]), SLEEPS)
        with open("/dev/full", "w") as full:
            gate = room.gate("--without-proofs", stdout=full, stderr=subprocess.PIPE if is_said else full)
        said = ended(gate)
        came = gate.returncode, said, comes(lambda: not any(map(runs, room.sleeping())))
        wanted = 1, "gate: cannot write: No space left on device\n" if is_said else None, True
        rows.row(f"gate: {label}", [] if came == wanted else came)


def try_gate(rows: Rows) -> None:
    with tempfile.TemporaryDirectory() as folder:
        room = Room(folder)
        for tried in (try_passing, try_without_proofs, try_failing, try_ci, try_ending):
            tried(rows, room)
