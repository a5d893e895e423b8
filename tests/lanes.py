"""What the lanes of tests share: the list of the gate's checks, and checks that are run, measured and counted.

A check is one command line, or some in turn. The last one prints `N passed, M failed` last, and its exit status agrees with that; or it
counts nothing, and passes by its status. What a check prints goes to out/lanes/NAME.log. Each command has a process group of its own, which
ends with the lane."""
import concurrent.futures
import dataclasses
import os
import pathlib
import re
import signal
import subprocess
import sys
import threading
import time
from collections.abc import Iterator

sys.path[:0] = (os.path.realpath(f"{__file__}/../../{it}") for it in ("tests/support", "build", "cli/python"))
from checkout import TOP  # noqa: E402

OUT = TOP / "out" / "lanes"
COUNT = re.compile(r"(\d+) passed, (\d+) failed")
# What is shown of a check that failed.
MOST_LINES = 30
# How long a check that is told to end has for it.
SECONDS_TO_END = 10
groups: set[int] = set()
# Held while a command starts, until its group is known, and by the end of the lane. A signal that comes meanwhile is sent again.
starting = threading.Lock()
come: list[int] = []


@dataclasses.dataclass
class Check:
    """A check's name, its command lines, whether it counts what passes, and whether nothing may run beside it."""

    name: str
    commands: list[list[str]]
    is_counted: bool = True
    is_alone: bool = False

    @property
    def log(self) -> pathlib.Path:
        return OUT / f"{self.name}.log"


@dataclasses.dataclass(frozen=True)
class GateCheck:
    """A check of the gate: its command line below the top, in which PROGRAM is the program, and whether it proves.

    `seconds` is about how long one of the longest takes: these begin first. `without_proofs` is its command line in a lane that proves
    nothing, if that is another one. `quick` leaves it out if `is_quick` is false. One whose rows stop processes at a time by the clock runs
    alone, after the others. `of_proved` says why it needs the proved program, which is fast, if it does: without that `quick` leaves it
    out."""

    line: str
    proves: bool = False
    seconds: int = 0
    without_proofs: str = ""
    is_quick: bool = True
    is_alone: bool = False
    of_proved: str = ""

    @property
    def name(self) -> str:
        return os.path.basename(self.line.split()[0])

    def check(self, program: str, is_proving: bool = True) -> Check:
        """Returns the check of a program, in a lane that proves or in one that proves nothing."""
        line = self.line if is_proving else self.without_proofs or self.line
        words = [program if it == "PROGRAM" else it for it in line.split()]
        return Check(self.name, [words], is_alone=self.is_alone)


# Why a check needs the proved program, which is some 40 times faster than one that is built without a proof.
LONG, MANY = "some runs are long", "it makes thousands of runs"
# The checks of the gate beside `rt ci`.
GATE = (
    GateCheck("tests/proofs/try-bodies", proves=True),
    GateCheck("tests/proofs/test-bodies", proves=True),
    GateCheck("tests/program/test-program PROGRAM", of_proved="it limits memory, and some runs are long"),
    GateCheck("tests/program/test-combinations PROGRAM"),
    GateCheck("tests/program/test-guests PROGRAM"),
    GateCheck("tests/program/test-files PROGRAM"),
    GateCheck("tests/program/test-sessions PROGRAM", of_proved=MANY),
    GateCheck("tests/proofs/check-definitions"),
    GateCheck("tests/format/check-format"),
    GateCheck("tests/docs/check-pages"),
    GateCheck("tests/proofs/try-bodies --applies"),
    GateCheck("tests/instructions/test-halves"),
    GateCheck("tests/instructions/test-extensions"),
    GateCheck("tests/instructions/test-profiles PROGRAM", seconds=60, of_proved=MANY),
    GateCheck("tests/lanes/test-lanes"),
    GateCheck("tests/launcher/test-launcher", seconds=100, is_alone=True),
    GateCheck("tests/tools/test-tools PROGRAM", seconds=65, of_proved=LONG),
    GateCheck("tests/exec/test-exec PROGRAM", of_proved=LONG),
    GateCheck("tests/python/test-python PROGRAM", of_proved=LONG),
    GateCheck("tests/examples/test-runners PROGRAM", seconds=55, of_proved="its tests have a time limit"),
    GateCheck("tests/examples/test-rust PROGRAM"),
    GateCheck("tests/explore/test-explore PROGRAM", seconds=200, of_proved=MANY),
    GateCheck("tests/sweep/test-sweep-table PROGRAM", of_proved=MANY),
    GateCheck("tests/docs/test-manual PROGRAM", of_proved=MANY),
    GateCheck("tests/package/test-man PROGRAM", of_proved=MANY),
    GateCheck("tests/adopt/test-adopt PROGRAM", seconds=55, of_proved=LONG),
    GateCheck("tests/guards/test-guards PROGRAM", of_proved=LONG),
    GateCheck("tests/origin/test-origin PROGRAM", of_proved=LONG),
    GateCheck("tests/coverage/test-coverage PROGRAM", of_proved=LONG),
    GateCheck("tests/search/test-search PROGRAM", of_proved=MANY),
    GateCheck("tests/program/test-look PROGRAM", of_proved=LONG),
    GateCheck("tests/program/test-tries PROGRAM", of_proved=MANY),
    GateCheck("tests/program/test-changes PROGRAM 15", of_proved=LONG),
    GateCheck("tests/sweep/test-faults PROGRAM 15", of_proved=MANY),
    GateCheck("tests/program/test-clean PROGRAM"),
    GateCheck("tests/program/test-any PROGRAM", of_proved=LONG),
    GateCheck("tests/gdb/test-gdb PROGRAM", seconds=40, of_proved=LONG),
    GateCheck("tests/page/test-page PROGRAM", seconds=270, without_proofs="tests/page/test-page --kept PROGRAM",
              of_proved="the page has the proved program"),
    GateCheck("tests/examples/test-firmware PROGRAM", of_proved=MANY),
)


def proving_nothing(program: str, is_proving: bool = False, is_quick: bool = False, is_proved: bool = True) -> list[Check]:
    """Returns the checks of the gate that prove nothing, or those of them that are quick, or that need no proved program, the longest
    first, and last those that run alone."""
    rows = [it for it in GATE if not it.proves and (it.is_quick or not is_quick) and (is_proved or not it.of_proved)]
    return [it.check(program, is_proving) for it in sorted(rows, key=lambda it: (it.is_alone, -it.seconds))]


@dataclasses.dataclass
class Result:
    """How often a check passed and failed, what its last line was, why it failed if its count doesn't say that, and the seconds that it
    took: by the clock, and of processors."""

    passed: int
    failed: int
    last: str
    fault: str = ""
    clock: float = 0
    processor: float = 0


def processors() -> int:
    return len(os.sched_getaffinity(0))


def judged(printed: str, status: int, is_counted: bool = True) -> Result:
    """What a check has come to, by its status and the last line of what it printed."""
    lines = printed.splitlines()
    last = lines[-1] if lines else ""
    if not is_counted:
        return Result(int(status == 0), int(status != 0), last)
    count = COUNT.fullmatch(last)
    if count and (status != 0) == (int(count[2]) != 0):
        return Result(int(count[1]), int(count[2]), last)
    return Result(0, 1, last, f"ended with status {status} and no count that agrees")


def start(words: list[str], output: int, errors: int | None) -> subprocess.Popen[bytes]:
    """Starts a command in a process group of its own, with these descriptors for what it prints."""
    try:
        with starting:
            child = subprocess.Popen(words, cwd=TOP, stdin=subprocess.DEVNULL, stdout=output, stderr=errors, start_new_session=True)
            groups.add(child.pid)
            return child
    finally:
        if come:
            os.kill(os.getpid(), come[0])


def ended(child: subprocess.Popen[bytes]) -> tuple[int, float]:
    """A command's status once it has ended, and the seconds of processors that it took with all that it started. The status of one that a
    signal ended is the shell's for it."""
    _, status, used = os.wait4(child.pid, 0)
    groups.discard(child.pid)
    child.returncode = os.waitstatus_to_exitcode(status)
    return child.returncode if child.returncode >= 0 else 128 - child.returncode, used.ru_utime + used.ru_stime


def measured(words: list[str], log: int) -> tuple[int, float]:
    """A command's status and seconds of processors. What it prints goes to a log."""
    try:
        child = start(words, log, subprocess.STDOUT)
    except OSError as fault:
        os.write(log, f"cannot run {words[0]}: {fault.strerror}\n".encode())
        return 127, 0
    return ended(child)


def run(check: Check) -> Result:
    """Runs a check, its commands in turn as long as each ends with status 0."""
    OUT.mkdir(parents=True, exist_ok=True)
    begun, processor, status = time.monotonic(), 0.0, 0
    with open(check.log, "wb", buffering=0) as log:
        for words in check.commands:
            status, used = measured(words, log.fileno())
            processor += used
            if status:
                break
    result = judged(check.log.read_text(errors="replace"), status, check.is_counted)
    result.clock, result.processor = time.monotonic() - begun, processor
    return result


def side_by_side(checks: list[Check]) -> Iterator[tuple[Check, Result]]:
    """Runs checks, as many at a time as there are processors, and begins them in their order; then those that run alone, in turn. Gives
    each when it has ended."""
    with concurrent.futures.ThreadPoolExecutor(processors()) as pool:
        running = {pool.submit(run, it): it for it in checks if not it.is_alone}
        for done in concurrent.futures.as_completed(running):
            yield running[done], done.result()
    for check in (it for it in checks if it.is_alone):
        yield check, run(check)


def tell(check: Check, result: Result) -> None:
    """Prints a line for a check that has ended, and where it failed the end of what it printed before that."""
    if result.failed:
        told = check.log.read_text(errors="replace").splitlines()
        print(f"== {check.name}: the end of {check.log.relative_to(TOP)}", *told[-MOST_LINES:], "==", sep="\n")
    print(f"{check.name}: {f'it {result.fault}' if result.fault else result.last}, {took(result)}", flush=True)


def took(result: Result) -> str:
    return f"{result.clock:.1f} s, processor {result.processor:.1f} s"


def end(lane: str, results: list[Result], begun: float, left_out: int = 0) -> int:
    """Prints what all took and how many checks were left out, and last the sum. Gives the exit status."""
    passed, failed = sum(it.passed for it in results), sum(it.failed for it in results)
    every = Result(passed, failed, "", clock=time.monotonic() - begun, processor=sum(it.processor for it in results))
    print(f"{lane}: {took(every)} in all" + (f"; {left_out} checks left out" if left_out else ""))
    print(f"{passed} passed, {failed} failed")
    return int(failed > 0)


def has_ended(child: int) -> bool:
    try:
        return os.waitid(os.P_PID, child, os.WEXITED | os.WNOHANG | os.WNOWAIT) is not None
    except ChildProcessError:
        return True


def send(number: int) -> None:
    for group in [*groups]:
        try:
            os.killpg(group, number)
        except OSError:
            pass


def end_all() -> None:
    """Ends all that the lane has started. Nothing starts any more: whoever calls this holds `starting`."""
    send(signal.SIGTERM)
    until = time.monotonic() + SECONDS_TO_END
    while not all(has_ended(it) for it in [*groups]) and time.monotonic() < until:
        time.sleep(0.02)
    send(signal.SIGKILL)


def stop(number: int, _: object) -> None:
    """Ends all that the lane has started, and then the lane by the same signal."""
    come.append(number)
    if not starting.acquire(blocking=False):
        return
    end_all()
    signal.signal(number, signal.SIG_DFL)
    os.kill(os.getpid(), number)


def end_by_signals() -> None:
    for number in (signal.SIGTERM, signal.SIGHUP, signal.SIGINT):
        signal.signal(number, stop)


def needs_program(lane: str, program: pathlib.Path) -> None:
    """Ends the lane where there is no program to try."""
    if not os.access(program, os.X_OK):
        print(f"{lane}: there is no program {program}; ./replaycheck --version builds the usual one", file=sys.stderr)
        sys.exit(2)
