"""What the launcher and `import replaycheck` make of `certify --any`, for test-any."""
import os
import pathlib
import subprocess
import sys

from any_rows import KEY, SAME, SEVERAL
from checkout import TOP
from guest_files import elf
from guest_rows import assembled
from rows import Rows

# Programs whose branch depends on the AND of two bytes that are read, in one of them also of a byte of memory; and their symbols.
BRANCH = "beq t0, x0, .+8; nop; li a0, 0; li a7, 93; ecall"
PROGRAMS = {"named": f"{KEY}; lbu t2, 8(s0); and t0, t0, t1; and t0, t0, t2; {BRANCH}", "two": f"{KEY}; and t0, t0, t1; {BRANCH}",
            "gap": f"{KEY}; lbu t1, 3(s0); and t0, t0, t1; {BRANCH}"}
SYMBOLS = [("key", 0x10808, 2), ("label", 0x1080c, 0), ("twice", 0x10810, 2), ("twice", 0x10814, 2), ("main", 0x10000, 64)]
ALL = ["--any", "0..3", "--any-memory", "0x10804..0x10810"]
USE = "first use at step {}: Conditional jump or move depends on uninitialised value(s) at 0x{:08x}: main"
IN_NAMED, IN_TWO = USE.format(12, 0x10030), USE.format(10, 0x10028)
# The program, the options, the status, and what is printed: of standard error without the launcher's name.
LAUNCHED = [
    ("the bytes of the input and of memory", "named", ["--input=zeros", *ALL], 5,
     [f"not the same for any 0..3, memory 0x00010804..0x00010810: {IN_NAMED}", " the bytes: input 0..1; memory 0x00010808..0x00010809"]),
    ("the first of two sets", "two", ["--input=ones", "--any", "0..3"], 5, [f"not the same for any 0..3: {IN_TWO}", " the bytes: input 0"]),
    ("bytes of which all are needed", "named", ["--input=zeros", "--any=0..1", "--any-memory=key"], 5,
     [f"not the same for any 0..1, memory 0x00010808..0x0001080a: {IN_NAMED}", " the bytes: input 0..1; memory 0x00010808..0x00010809"]),
    ("a symbol", "named", ["--input=zeros", "--any-memory", "key"], 0,
     [f"any memory 0x00010808..0x0001080a: the run is the same up to step 4194304 for each value of these bytes of memory: {SAME}"]),
    ("the command line", "named",
     ["--input=zeros", "--any", "0", "--any-memory", "key", "--reveal=5,0x10800,1", "--show-options"], 0,
     ["replaycheck certify named --input=zeros --any=0 --any-memory=0x00010808..0x0001080a --reveal=5,0x10800,1"]),
    ("a label", "named", ["--any-memory", "label"], 2,
     ["--any-memory: named: symbol label at 0x0001080c has no size: name the addresses, A..B"]),
    ("two symbols of a name", "named", ["--any-memory", "twice"], 2,
     ["--any-memory: named: there are 2 symbols twice, at 0x00010810, 0x00010814: name the addresses, A..B"]),
    ("no such symbol", "named", ["--any-memory", "kez"], 2, ["--any-memory: named: no symbol kez: did you mean key?"]),
    ("no bytes that are any", "named", ["--input=zeros", "--step", "3"], 0,
     ["clean up to step 3: nothing that uninitialised, freed or unmapped memory holds has any influence on the run up to there; "
      "the run goes on"]),
]
GAP = ["--input=zeros", "--any", "0..3"]
IN_GAP = f"not the same for any 0..3: {USE.format(11, 0x1002c)}"
# The same of a program that takes several ranges, and of one that takes one.
LAUNCHED_OF = {
    True: [
        ("ranges of one byte each", "two", ["--input=ones", "--any", "3", "--any", "1", "--any", "2"], 5,
         [f"not the same for any 3, 1, 2: {IN_TWO}", " the bytes: input 1"]),
        ("bytes with a gap", "gap", GAP, 5, [IN_GAP, " the bytes: input 0, 3"]),
    ],
    False: [("bytes with a gap, as one range", "gap", GAP, 5, [IN_GAP, " the bytes: input 0..3"])],
}


def give(folder: pathlib.Path) -> None:
    for name, code in PROGRAMS.items():
        (folder / name).write_bytes(elf(assembled(code), 0x1000, SYMBOLS))
    (folder / "zeros").write_bytes(bytes(4))
    (folder / "ones").write_bytes(b"\1\1\1\1")


def try_launcher(rows: Rows, program: str, folder: pathlib.Path, features: set[str]) -> None:
    """The launcher with a program."""
    give(folder)
    of_features = LAUNCHED_OF[SEVERAL in features]
    for label, file, options, status, want in [*LAUNCHED, *of_features]:
        words = [TOP / "cli/replaycheck", "certify", file, *options]
        done = subprocess.run(words, cwd=folder, env={**os.environ, "REPLAYCHECK": program}, capture_output=True, text=True)
        told = done.stdout.splitlines() + [line.removeprefix("replaycheck certify: ") for line in done.stderr.splitlines()]
        faults = [] if told == want else [f"printed {told}", f"and not {want}"]
        rows.row(f"launcher: {label}", faults + ([] if done.returncode == status else [f"status {done.returncode} and not {status}"]))


# A script, in which `run` is of the program `two` and an input of ones, and what it prints.
SCRIPTED = [
    ("the same", "c = run.certify(20, any=range(2, 4)); print(bool(c), c.same, c.clean, c.goes_on, c.step)",
     ["True True True False None"]),
    ("a range as text", "print(str(run.certify(any='2..3')).partition(' up to')[0])", ["any 2..3: the run is the same"]),
    ("not the same", "c = run.certify(any=0); print(bool(c), c.same, c.clean, c.goes_on, c.step); print(c)",
     ["False False True False 10", f"not the same for any 0: {IN_TWO}"]),
    ("it goes on", "print(*[(bool(c), c.same, c.goes_on) for c in (run.certify(5, any=0), run.certify(9, memory='key'))])",
     ["(True, True, True) (True, True, True)"]),
    ("bytes that aren't read", "print(run.certify(3, any=0).unread)", ["['input 0 is not read up to step 3']"]),
    ("an edited input", "with run.edited('input append 0', 'input 0 0'): print(run.certify(any=1).same, run.certify(any=4).unread)",
     ["True ['input 4 is not read up to step 4194304']"]),
    ("what may be known", "print(run.certify(any=0, reveal=[(7, 0x10800, 1)]).same)", ["True"]),
    ("without bytes", "print(type(run.certify()).__name__, type(run.certify(memory=range(0x10800, 0x10804))).__name__)",
     ["Certificate AnyCertificate"]),
    ("no such byte", "run.certify(any=4)", ["Refused"]),
    ("no bytes", "run.certify(any='x')", ["Usage"]),
    ("a range with gaps", "run.certify(any=range(0, 4, 2))", ["Usage"]),
    ("no such symbol", "run.certify(memory='kez')", ["Usage"]),
    ("an edit of the program", "run.patch('main', 0x13); run.certify(any=0)", ["Usage"]),
    ("a mark", "run.mark(3, 'key', 1, 'undefined'); run.certify(any=0)", ["Usage"]),
]
# The same of a program that takes several ranges.
SCRIPTED_SEVERAL = [("some ranges", "print(str(run.certify(any=[2, range(3, 4)])).partition(':')[0])", ["any 2, 3"])]
AROUND = """import replaycheck
with replaycheck.Run("two", input="ones") as run:
    try:
        {}
    except replaycheck.Error as fault:
        print(type(fault).__name__)
"""


def try_scripts(rows: Rows, program: str, folder: pathlib.Path, features: set[str]) -> None:
    """Scripts with a program. The twin has no session for them."""
    if pathlib.Path(program).name == "twin":
        rows.left_out("scripts", "session in this program")
        return
    give(folder)
    environment = {**os.environ, "REPLAYCHECK": program, "PYTHONPATH": str(TOP / "cli/python")}
    for label, text, want in [*SCRIPTED, *(SCRIPTED_SEVERAL if SEVERAL in features else [])]:
        words = [sys.executable, "-B", "-c", AROUND.format(text)]
        done = subprocess.run(words, cwd=folder, env=environment, capture_output=True, text=True)
        told = done.stdout.splitlines() + done.stderr.splitlines()[-1:]
        rows.row(f"script: {label}", [] if told == want else [f"printed {told}", f"and not {want}"])
