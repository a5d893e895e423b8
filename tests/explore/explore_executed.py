"""What `replaycheck explore --lcov` writes, for test-explore: beside `replaycheck coverage` of each edited input, and beside a
session for each alteration."""
import os
import pathlib
import random
import shlex
import shutil
import signal
import subprocess
import sys

from checkout import TOP
from coverage_cases import BINUTILS, GCC, START, frames, looked, records, rows_of_lines, words_of
from explore_room import EXAMPLES, EXPLORE
from explore_signals import ended_by

COVERAGE = str(TOP / "cli/bin/replaycheck-coverage")
STATION = ["station.elf", "--input=station.input"]
STEP = 1600
BOOT = ["boot.elf", "--input=boot.input", f"--step={STEP}"]
BEGIN, ALL_CODE = 0x100A0, "look sides 0x100a0 556"  # of boot.elf
FEW = ["--bytes=15..16", "--values=1,2"]
SKIPS = ["--words=0x10100..0x10104"]  # the runs of these edits are looked at
VALUES = 5  # of each byte of the station's input, by chance
# Functions that are some thousands of bytes apart, which a byte of the input chooses.
FAR = START + """
#line 1 "far.c"
__attribute__((noinline)) int one(int a) { return a + 1; }
void between(void) { __asm__ volatile(".rept 3000; .word 0x13; .endr"); }
__attribute__((noinline)) int two(int a) { return a + 2; }
void behind(void) { __asm__ volatile(".rept 3000; .word 0x13; .endr"); }
__attribute__((noinline)) int three(int a) { return a + 3; }
int main(const unsigned char *given, int count)
{
    switch (given[0]) {
    case 1:
        return one(count);
    case 2:
        return two(count);
    case 3:
        return three(count);
    }
    return 0;
}
"""
# The tool with other bounds: of the lines of a session, and of those that wait.
BOUNDED = f"""import runpy, sys
sys.path.insert(0, {str(TOP / "cli/python")!r})
from replaycheck.exploring import edited_runs, executed
edited_runs.MOST_LINES, executed.MOST_WAITING = map(int, sys.argv[1:3])
edited_runs.MOST_WAITING = executed.MOST_WAITING
sys.argv = [{EXPLORE!r}, *sys.argv[3:]]
runpy.run_path({EXPLORE!r}, run_name="__main__")
"""
# A program that answers looks in another way, once parts were made.
LOOKER = """#!/bin/sh
case "$*" in *--part=*) echo part >>{room}/made ;; esac
case $1 in look) [ ! -s {room}/made ] || {does} ;; esac
exec {program} "$@"
"""


def written(tests, words, **more):
    """The info file that an exploration writes, which must do its work."""
    status, out, err = tests.run([*words, "--lcov=out.info"], **more)
    if status > 1 or err:
        raise ValueError(f"{words}: status {status}: {err}{out}")
    return (tests.room / "out.info").read_bytes()


def of_inputs(tests, file, inputs, *more):
    """The info file of runs with inputs, each in a file."""
    names = [tests.file(f"given-{number}", it).name for number, it in enumerate(inputs)]
    return subprocess.run([COVERAGE, file, "--format=lcov", *more, "--input", *names], cwd=tests.room, env=tests.environment(),
                          stdout=subprocess.PIPE, check=True).stdout


def edited(given, values):
    """An input, and each that has one of the values at a place."""
    return [given, *(given[:at] + bytes([it]) + given[at + 1:] for at, was in enumerate(given) for it in values if it != was)]


def looker(tests, does):
    quoted = {"program": shlex.quote(tests.program), "room": shlex.quote(str(tests.room))}
    tests.wrapper("")
    path = tests.room / "wrapper"
    path.write_text(LOOKER.format(does=does.format(**quoted), **quoted))
    return str(path)


# ---- what is executed


def test_inputs(tests):
    """The lines, branches and functions are those that `coverage` finds of all edited inputs at once."""
    given, values = (tests.room / "station.input").read_bytes(), random.Random(41).sample(range(256), VALUES)
    inputs = edited(given, values)
    words = [*STATION, "--values", ",".join(map(str, values))]
    wanted, came = of_inputs(tests, "station.elf", inputs, "--step=10000"), written(tests, words)
    tests.check(f"--lcov: {len(inputs) - 1} edits of the station", "" if came == wanted else (came[-900:], wanted[-900:]))
    lines = {os.path.basename(name): it.lines for name, it in records(came.decode()).items()}["station.c"]
    tests.check("--lcov: lines that no edit reaches", [it for it in (32, 45, 56, 68) if lines[it]])
    single = [written(tests, [*STATION, *FEW, f"--jobs={jobs}", f"--parts={jobs}"]) for jobs in (1, 2)]
    tests.check("--lcov: the same by one job and by two", single[0] != single[1])
    bounded = [sys.executable, "-c", BOUNDED, "1", "3", *STATION, *FEW, "--jobs=1", "--lcov=out.info"]
    (tests.room / "out.info").unlink()
    subprocess.run(bounded, cwd=tests.room, env=tests.environment(), stdout=subprocess.DEVNULL, check=False)
    tests.check("--lcov: more edits than a session has lines", (tests.room / "out.info").read_bytes() != single[0])
    tests.check("--lcov: with a goal", written(tests, [*STATION, *FEW, "--goal=exited 1"]) != single[0])
    out = tests.run([*STATION, *FEW, "--table=whole", "--lcov=-"])[1]
    tests.check("--lcov -: in place of the summary", out.encode() != single[0])
    tests.check("--lcov: of tables that are there", written(tests, [*STATION, "--from", "whole"]) != single[0])


def test_parts(tests):
    """Parts of the code that only some edits reach."""
    for isa in ("rv32im", "rv32imc"):
        tests.file("far.c", FAR.encode())
        subprocess.run([*words_of(isa, "far.elf", "-O0"), "far.c"], cwd=tests.room, check=True)
        given, inputs = tests.file("far.input", b"\0"), [bytes([it]) for it in range(5)]
        for label, values in (("all", "1,2,3,4"), ("the last", "3"), ("none", "4")):
            wanted = of_inputs(tests, "far.elf", [inputs[0], *(inputs[int(it)] for it in values.split(","))], f"--isa={isa}")
            came = written(tests, ["far.elf", f"--isa={isa}", "--step=1048576", "--input", given, f"--values={values}"])
            tests.check(f"--lcov: parts that edits reach, {label}, {isa}", "" if came == wanted else (came[:900], wanted[:900]))


def lines_of_runs(tests, edits):
    """The lines of boot.elf that runs execute: the unedited one, and one for each edit, in a session of its own."""
    executed, file = set(), tests.room / "boot.elf"
    for lines in [[], *edits]:
        told = looked(tests.program, ["--input", tests.room / "boot.input", file], [*lines, f"goto {STEP}", ALL_CODE])
        executed |= {BEGIN + 4 * at for at, side in enumerate(told[-1].split()[1]) if side != "0"}
    found, table = frames(file, sorted(executed)), rows_of_lines(file, sorted(executed))
    places = (told or [("", *table[address])] for address, told in found.items())
    return {(os.path.basename(name), line) for told in places for _, name, line in told}


def edits_in(tests, words):
    """The lines of each edit of an exploration, as its table has them."""
    tests.run([*words, "--table=rows"])
    rows = (line.rpartition(" ")[0] for line in (tests.room / "rows").read_text().splitlines())
    return [row.split("; ") for row in rows if row.startswith(("skip ", "patch "))]


def test_alterations(tests):
    """Skipped instructions, at steps and in the code, and a bit of pc: its run may begin within an instruction of 32 bits."""
    for label, more in (("steps", ["--at=0..", "--code=main", "--faults=skip"]),
                        ("code", ["--words=0x10234..0x1023c", "--words-values=0x13,0x100073"]),
                        ("pairs", ["--at=1290..1291", "--faults=skip", "--pairs=skip"])):
        words = [*BOOT, *more, "--jobs=1"]
        wanted = lines_of_runs(tests, edits_in(tests, words))
        found = records(written(tests, words).decode())
        came = {(os.path.basename(name), line) for name, it in found.items() for line, is_executed in it.lines.items() if is_executed}
        tests.check(f"--lcov: alterations, {label}", "" if came == wanted else sorted(came ^ wanted))
    words = ["rv32imc.elf", "--isa=rv32imc", "--input=boot.input", f"--step={STEP}"]
    plain = records(of_inputs(tests, "rv32imc.elf", [(tests.room / "boot.input").read_bytes()], "--isa=rv32imc").decode())
    found = records(written(tests, [*words, "--at=1280..1283", "--faults=pc"]).decode())
    differ = [name for name, it in plain.items() if any(getattr(found[name], kind).keys() != getattr(it, kind).keys()
                                                        for kind in ("lines", "branches"))]
    tests.check("--lcov: no other lines and branches by pc within an instruction", differ)


def test_told(tests):
    """The line of the summary, and none without the option."""
    status, out, err = tests.run([*STATION, *FEW, "--lcov=out.info"])
    text = "executed: 76 of 85 lines of station.c (never 32,45,56,68,70,77-78,90,109), 12 of 16 of start.S (never 31-34), "
    tests.check("--lcov: the summary", "" if status < 2 and f"\n{text}" in out and out.count("executed:") == 1 else (out, err))
    found, words = tests.run([*STATION, *FEW])[1], out.split("\n")
    tests.check("--lcov: the rest of the summary", found != "\n".join(it for it in words if not it.startswith("executed: ")))
    if shutil.which("genhtml"):
        done = subprocess.run(["genhtml", "--branch-coverage", "-o", tests.room / "html", tests.room / "out.info"],
                              cwd=EXAMPLES / "firmware", capture_output=True, text=True)
        tests.check("--lcov: genhtml reads it", "" if not done.returncode and "lines" in done.stdout else (done.stdout, done.stderr))
    else:
        tests.left_out("--lcov: genhtml reads it", "genhtml")


# ---- what can't be done


def test_lcov_rejected(tests):
    words = [*STATION, *FEW]
    tests.refuse_all([(f"--lcov rejected: {label}", more, text) for label, more, text in (
        ("the program", [*words, "--lcov=station.elf"], "--lcov station.elf: it would overwrite the program"),
        ("the input", [*words, "--lcov=./station.input"], "--lcov ./station.input: it would overwrite the input"),
        ("another output", [*words, "--svg=o", "--lcov=./o"], "--svg and --lcov: both would write ./o"),
        ("two outputs to standard output", [*words, "--svg=-", "--lcov=-"], "--svg - and --lcov - at once"),
        ("without a value", [*words, "--lcov="], "an option without a value"),
        ("without a file", ["--from", "known.supp", "--lcov=o"], "--lcov goes with a FILE"),
        ("no folder", [*words, "--lcov=missing/o"], "missing/o: No such file"),
        ("no source lines", ["half.elf", "--isa=rv32imc", "--input=packet.input", "--bytes=0", "--lcov=o"],
         "it has no source lines: compile and link it with -g"))])
    tests.refuses("--lcov rejected: no addr2line", [*words, "--lcov=o"], "cannot run no-addr2line", ADDR2LINE="no-addr2line")
    tests.refuses("--lcov rejected: a full disk", [*words, "--lcov=/dev/full"], "cannot write /dev/full: No space left")
    (tests.room / "out").mkdir(exist_ok=True)
    tests.refuses("--lcov rejected: no room", [*words, "--lcov=out/o"], "out/o: File too large", before=["prlimit", "--fsize=2500"])
    looked = [*STATION, *SKIPS]
    wrapper = looker(tests, '{{ {program} "$@" | sed -u \'s/^sides .*/refused 1/\'; exit; }}')
    tests.refuses("--lcov rejected: out of memory", [*looked, "--jobs=1", "--lcov=out/o"],
                  "--lcov: no look at the unedited run: look sides 0x100a0 2444: refused 1: out of memory", REPLAYCHECK=wrapper)
    wrapper = looker(tests, '{{ sed -u 4q | {program} "$@"; exit 4; }}')
    tests.refuses("--lcov rejected: a session that ends", [*looked, "--jobs=1", "--lcov=out/o"],
                  "--lcov: no look at the run with `patch 0x00010104 0x00000013`: the program ended before it replied, with status 4",
                  REPLAYCHECK=wrapper)
    changed = looker(tests, "printf x >>{room}/changing.elf")
    shutil.copy(tests.room / "station.elf", tests.room / "changing.elf")
    tests.refuses("--lcov rejected: a file that is changed", ["changing.elf", *looked[1:], "--lcov=out/o"],
                  "--lcov: changing.elf was changed meanwhile", REPLAYCHECK=changed)
    wrapper = looker(tests, "exec sleep 30")
    for number in (signal.SIGINT, signal.SIGTERM):
        (tests.room / "made").write_text("")
        wrong = ended_by(tests, [*looked, "--lcov=out/o", "--jobs=1", "--parts=1"], number, lambda: (tests.room / "made").read_text())
        tests.check(f"--lcov: {number.name}", wrong)
    tests.check("--lcov: nothing is left", list((tests.room / "out").iterdir()) or tests.left())


def test_executed(tests):
    missing = [it for it in (f"{BINUTILS}addr2line", GCC) if not shutil.which(it)]
    if missing:
        tests.left_out("--lcov", missing[0])
        return
    firmware = EXAMPLES / "firmware"
    for source, name in (("station.elf", "station.elf"), ("station.input", "station.input"), ("boot.elf", "boot.elf"),
                         ("boot.input", "boot.input"), ("rv32imc/boot.elf", "rv32imc.elf")):
        shutil.copy(firmware / source, pathlib.Path(tests.room, name))
    for test in (test_inputs, test_parts, test_alterations, test_told, test_lcov_rejected):
        test(tests)
