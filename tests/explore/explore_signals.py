"""Signals that `replaycheck explore` meets, its outputs, and parts that others make, for tests/explore/test-explore."""
import contextlib
import os
import pathlib
import pty
import re
import shlex
import shutil
import signal
import subprocess
import sys
import time
from unittest import mock

from checkout import TOP
from explore_room import EXPLORE, MOST_SECONDS, PACKET
from replaycheck.exploring import progress
from rows import SIGNALS, default_signals

SIGNALLED = str(TOP / "tests/support/signalled.py")
# What stands in for ssh: it runs the command here.
# As sshd does, it begins in a home of its own and sets HOME and SHELL.
FAKE_SSH = """#!/bin/bash
touch "$0.used"
while [[ $1 == -* ]]; do shift; done
shift
[[ $1 != -- ]] || shift
mkdir -p "$0.home" && cd "$0.home" && exec env HOME="$PWD" SHELL="$BASH" "$BASH" -c "$*"
"""

# ---- signals


def running_in(folder):
    """The processes that have a folder for their temporary files, but for those that have ended."""
    found = []
    for path in pathlib.Path("/proc").glob("[0-9]*"):
        with contextlib.suppress(OSError):
            ended = (path / "stat").read_text().rpartition(")")[2].split()[0] == "Z"
            if not ended and f"TMPDIR={folder}".encode() in (path / "environ").read_bytes():
                found.append((path / "cmdline").read_bytes().replace(b"\0", b" "))
    return found


def ended_by(tests, words, number, wait):
    """What is wrong of a run that a signal meets, once `wait` gives true: its status, its output, what it leaves."""
    child = subprocess.Popen([EXPLORE, *words], cwd=tests.room, start_new_session=True, preexec_fn=default_signals,
                             stdin=subprocess.DEVNULL, stdout=subprocess.PIPE, stderr=subprocess.PIPE,
                             env=tests.environment(REPLAYCHECK=str(tests.room / "wrapper")))
    end = time.monotonic() + 20
    while not wait() and time.monotonic() < end and child.poll() is None:
        time.sleep(0.01)
    os.kill(child.pid, number)
    begun = time.monotonic()
    out, err = child.communicate(timeout=MOST_SECONDS)
    took = time.monotonic() - begun
    while running_in(tests.scratch) and time.monotonic() < begun + 20:
        time.sleep(0.02)
    left = running_in(tests.scratch), tests.left()
    is_well = child.returncode == -number and not out and b"Traceback" not in err and took < 20 and left == ([], [])
    return "" if is_well else (child.returncode, took, out[:200], err[:400], left)


def dropped_by(tests, module, function, words):
    """What is wrong of a run that continues with parts after SIGINT, as Python drops what that raises."""
    done = subprocess.run([sys.executable, "-S", SIGNALLED, "dropped", "SIGINT", f"replaycheck.exploring.{module}", function,
                           EXPLORE, *PACKET, *words], cwd=tests.room, env=tests.environment(), stdin=subprocess.DEVNULL,
                          capture_output=True, preexec_fn=default_signals, timeout=MOST_SECONDS)
    return "" if done.returncode == -signal.SIGINT and not done.stdout and not tests.left() else (done, tests.left())


def test_signals(tests):
    for number in SIGNALS:
        tests.wrapper("exec sleep 30")
        wrong = ended_by(tests, [*PACKET, "--jobs=2", "--keep=signalled"], number, lambda: len(tests.made()) == 2)
        tests.check(f"{number.name} while parts are made", wrong)
        tests.check(f"{number.name}: the folder has no rest", list((tests.room / "signalled").iterdir()))
    tests.wrapper("exec sleep 30")
    for wait in (0, 0.02, 0.05, 0.08, 0.1, 0.15, 0.2, 0.3):
        end = time.monotonic() + wait
        wrong = ended_by(tests, [*PACKET, "--parts=50"], signal.SIGTERM, lambda: time.monotonic() >= end)
        tests.check(f"TERM after {wait} seconds", wrong)
    tests.check("INT that Python drops", dropped_by(tests, "running", "Runner.read", ["--parts=4", "--jobs=1"]))
    tests.wrapper("exec yes 'input 0 3 0'")
    wrong = ended_by(tests, [*PACKET, "--jobs=2"], signal.SIGKILL, lambda: len(tests.made()) == 2)
    tests.check("killed outright: no part goes on", wrong and wrong[-1][0])
    left, kept = tests.left(), tests.file("scratch/.replaycheck-explore-my-own", b"")
    tests.run(PACKET)
    tests.check("killed outright: the next run removes what is left", "" if left and tests.left() == [kept.name] else (left, tests.left()))
    kept.unlink()
    tests.wrapper("sleep 1")
    child = subprocess.Popen([EXPLORE, *PACKET, "--keep=twice"], cwd=tests.room, stdout=subprocess.DEVNULL,
                             env=tests.environment(REPLAYCHECK=str(tests.room / "wrapper")))
    while not tests.made():
        time.sleep(0.02)
    tests.refuses("two at once in a folder", [*PACKET, "--keep=twice"], "another `explore` is using this folder")
    tests.check("two at once: the folder of one that works stays", len(tests.left()) != 1)
    child.send_signal(signal.SIGTERM)
    tests.check("the first of two goes on until it is ended", child.wait() != -signal.SIGTERM)


# The tool that says how far it is after each interval of some seconds.
HASTY = f"""import runpy, sys
sys.path.insert(0, {str(TOP / "cli/python")!r})
from replaycheck.exploring import progress
progress.INTERVAL = float(sys.argv[1])
sys.argv = [{EXPLORE!r}, *sys.argv[2:]]
runpy.run_path({EXPLORE!r}, run_name="__main__")
"""


# When edits come, by seconds and numbers; how many there are, or 0 if that isn't known; and what is said where no terminal is.
STEADY = [(second, 50) for second in range(1, 31)]
SAID = [("less than an interval", STEADY[:9], 450, []), ("a short whole", STEADY[:9], 900, []),
        ("each interval", STEADY, 2000, ["2000 edits: some 40 s in all", *(
            f"{50 * second} of 2000 edits, 50 a second, {40 - second} s left" for second in (10, 20, 30))]),
        ("an unknown number", STEADY[:20], 0, ["500 edits, 50 a second", "1000 edits, 50 a second"]),
        ("the first edits in a burst", [(1, 4), (10, 0), (20, 396)], 10000, [
            "4 of 10000 edits, 0 a second", "400 of 10000 edits, 20 a second, 480 s left"]),
        ("no edit for long", [(10, 0), (12, 500), (20, 0)], 1000, [
            "0 of 1000 edits, 0 a second", "500 of 1000 edits, 25 a second, 20 s left"])]


def said_of(events, edits):
    """What is said of a sweep on its way."""
    said, clock = [], iter([0, *(second for second, _ in events)])
    with mock.patch.multiple(progress, put=said.append, sys=mock.Mock(**{"stderr.isatty.return_value": False}),
                             time=mock.Mock(monotonic=lambda: next(clock))):
        shown = progress.Progress(edits)
        for _, number in events:
            shown.add(number)
        shown.end()
    return said


def test_lines_of_progress(tests):
    """Where standard error is no terminal a line comes at each interval, after an estimate if that can be known; and a sweep doesn't fail
    where the line can't be written."""
    for label, events, edits, wanted in SAID:
        found = said_of(events, edits)
        tests.check(f"lines of progress: {label}", "" if found == [f"replaycheck explore: {it}\n" for it in wanted] else found)
    words = ["packet.elf", "--input=packet.input", "--jobs=1", "--parts=4", "--step=90", "--values=flips"]
    whole, slow = tests.run(words), tests.environment(REPLAYCHECK=tests.wrapper("sleep 0.4"))
    lines = r"(?:replaycheck explore: \d+ of 64 edits, \d+ a second(?:, \d+ s left)?\n)+"
    for ends, told in (("", lines), ("2>&-", ""), ("2>/dev/full", "")):
        done = subprocess.run(["bash", "-c", f'exec "$@" {ends}', "bash", sys.executable, "-c", HASTY, "0.3", *words], cwd=tests.room,
                              capture_output=True, text=True, env=slow)
        is_well = (done.returncode, done.stdout) == whole[:2] and re.fullmatch(told, done.stderr)
        tests.check(f"lines of progress, written {ends}", "" if is_well else done)


def test_progress(tests):
    """On a terminal it is said in one line, which is taken back."""
    leader, follower = pty.openpty()
    child = subprocess.Popen([EXPLORE, *PACKET, "--jobs=1", "--parts=4"], cwd=tests.room, stdout=subprocess.PIPE, stderr=follower,
                             env=tests.environment(REPLAYCHECK=tests.wrapper("sleep 0.4")))
    os.close(follower)
    said = b""
    with contextlib.suppress(OSError):  # the terminal ends with the tool
        while not said.endswith(b"\0"):
            said += os.read(leader, 4096) or b"\0"
    os.close(leader)
    is_well = re.fullmatch(rb"(\r\x1b\[Kexplore: \d+ of 64 edits, \d+ a second(, \d+ s left)?)+\r\x1b\[K", said)
    tests.check("progress", "" if is_well and b"64 edits" in child.communicate()[0] else said)


def test_outputs(tests):
    for label, words in (("a summary", PACKET), ("a table", [*PACKET, "--table=-"]), ("a picture", [*PACKET, "--svg=-"]),
                         ("a table elsewhere", [*PACKET, "--table=/dev/full"])):
        with open("/dev/full" if "elsewhere" not in label else "/dev/null", "wb") as full:
            done = subprocess.run([EXPLORE, *words], cwd=tests.room, env=tests.environment(), stdout=full, stderr=subprocess.PIPE)
        tests.check(f"no space left for {label}", "" if done.returncode == 2 and b"No space left" in done.stderr else done)
    few = ["prlimit", "--fsize=1400"]  # as a full disk: the table and the picture don't fit, and neither does a single part
    for label, words, name in (("a table", ["--table=out/t"], "out/t"), ("a picture", ["--table=out/t", "--svg=out/p.svg"], "out/p.svg"),
                               ("a part", ["--parts=1"], "/part-1-of-1.new")):
        (tests.room / "out").mkdir(exist_ok=True)
        tests.refuses(f"no room for {label}", [*PACKET, *words], f"{name}: File too large", before=few)
        tests.check(f"no room for {label}: nothing is left", list((tests.room / "out").iterdir()) or tests.left())
    gone = subprocess.Popen([EXPLORE, *PACKET, "--table=-"], cwd=tests.room, env=tests.environment(), stdout=subprocess.PIPE,
                            stderr=subprocess.PIPE)
    gone.stdout.close()
    gone.stdout = None
    said = gone.communicate()[1]
    tests.check("nobody reads on", "" if gone.returncode == -signal.SIGPIPE and not said else (gone.returncode, said))
    tests.check("nothing is left behind by outputs", tests.left() or list(tests.room.glob(".replaycheck-*")))


# ---- elsewhere


def test_elsewhere(tests):
    """Scripts and other machines."""
    made = tests.run([*PACKET, "--parts=3", "--script=slurm", "--keep=array"])
    script = tests.file("script", made[1].encode())
    (tests.room / "path").mkdir()
    (tests.room / "path" / "replaycheck").symlink_to(tests.program)
    path = f"{tests.room / 'path'}:{os.environ['PATH']}"
    for task in (1, 2, 3):
        subprocess.run(["bash", script], cwd=tests.room, check=False, env=tests.environment(
            PATH=path, SLURM_ARRAY_TASK_ID=str(task), SLURM_ARRAY_TASK_COUNT="3"))
    whole = tests.run(PACKET)
    told = re.search(r"#   replaycheck explore (.*)", made[1])
    words = [word for it in shlex.split(told[1]) for word in (sorted(map(str, tests.room.glob(it))) if "*" in it else [it])]
    tests.check("--script slurm", "" if tests.run(words) == whole and "--array=1-3" in made[1] else (made, tests.run(words)))
    came = tests.run([*PACKET, "--keep=array"], REPLAYCHECK=tests.wrapper(""))
    tests.check("--keep takes the array's tables", "" if came == whole and not tests.made() else came)
    tests.refuses("--script with a name in two lines", ["a name\nin two lines.elf", "--script=slurm", *PACKET[1:]],
                  "can't read a name\\x0ain")
    (tests.room / "few").mkdir()
    (tests.room / "few" / "python3").symlink_to(sys.executable)
    tests.refuses("--sshlogin without GNU parallel", [*PACKET, "--sshlogin=:"], "GNU parallel isn't there", PATH=str(tests.room / "few"))
    other = tests.file("few/parallel", b"#!/bin/sh\necho parallel from moreutils\n".replace(b"/bin/sh", shutil.which("sh").encode()))
    other.chmod(0o755)
    tests.refuses("--sshlogin with another parallel", [*PACKET, "--sshlogin=:"], "GNU parallel isn't there", PATH=str(tests.room / "few"))
    if not shutil.which("parallel"):
        return tests.left_out("--sshlogin", "parallel")
    if shutil.which("rsync"):
        ssh = tests.file("path/ssh", FAKE_SSH.encode())
        ssh.chmod(0o755)
        came = tests.run([*PACKET, "--sshlogin=2/elsewhere", "--parts=3"], PATH=path)
        tests.check("--sshlogin another machine", "" if came == whole and (tests.room / "path" / "ssh.used").exists() else came)
    else:
        tests.left_out("--sshlogin another machine", "rsync")
    came = tests.run([*PACKET, "--sshlogin=:", "--parts=3"], POSIXLY_CORRECT="1")
    tests.check("--sshlogin :", "" if came == whole else came)
    wrong = dropped_by(tests, "remote", "edits_in", ["--sshlogin=:", "--parts=3"])
    tests.check("--sshlogin, INT that Python drops", wrong)
    tests.refuses("--sshlogin: a part that fails", [*PACKET, "--sshlogin=:", "--parts=3"], "part 2/3 failed twice",
                  REPLAYCHECK=tests.wrapper('[ "$part" != 2/3 ] || exit 4'))
    tests.wrapper("exec sleep 30")
    for number in SIGNALS:
        (tests.room / "made").write_text("")
        wrong = ended_by(tests, [*PACKET, "--sshlogin=:", "--parts=2", "--jobs=2"], number, lambda: len(tests.made()) == 2)
        tests.check(f"--sshlogin, {number.name}", wrong)
