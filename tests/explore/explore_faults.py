"""Sweeps of alterations at steps, by `replaycheck explore --at A..B --faults LIST`, for tests/explore/test-explore."""
import random
import re
import shutil

from explore_cases import changed
from explore_pictures import test_swept_steps
from explore_room import EXAMPLES
from guest_files import elf
from replaycheck.disassembly import PROGRAMS
from replaycheck.exploring.steps import MODELS
from replaycheck.guest.assembly import assemble
from replaycheck.programs import ISAS, USUAL

BOOT = ["boot.elf", "--input=boot.input"]
TWICE = ["boot-twice.elf", "--input=boot.input"]
HAS_OBJDUMP = any(map(shutil.which, PROGRAMS))
# How the text of a load begins, where there is a disassembler; and that of `lw ra,28(sp)`.
LOADED, NAMED = (r", lw {},{}\(sp\)", [", lw ra,28(sp)\n"]) if HAS_OBJDUMP else ("", [])
VERIFY = "code 0x0001021c..0x000102b0"
SHORT = [*BOOT, "--at=1270..1276", "--faults=skip,pc", "--step=2000"]
# What becomes of a good table of SHORT, and what is said of it.
WRONG = [
    ("no steps", lambda it: re.sub(rb"\nsteps .*", b"", it), "`steps A..B MODELS`, as in each table of `sweep 2`, comes here"),
    ("an unknown model", changed(b"skip,pc", b"skip,heap"), "an unknown fault model: 'heap'"),
    ("a model twice", changed(b"skip,pc", b"skip,skip"), "a fault model twice"),
    ("steps the wrong way round", changed(b"1270..1276", b"1276..1270"), "ends before it begins"),
    ("steps beyond the runs", changed(b"step 2000", b"step 1276"), "steps up to 1276, and runs that are compared at step 1276"),
    ("a range of code without its end", changed(b"skip,pc", b"skip,pc code 0x00010000"), "`steps A..B MODELS` comes here"),
    ("an edit that there is not", changed(b"skip 1272", b"jump 1272"), "comes here"),
    ("an edit of another model", changed(b"skip 1272 ", b"set 1272 x1 0x00000000 "), "those of step 1272 aren't all"),
    ("a skip that is missing", lambda it: re.sub(rb"\nskip 1272 \d+", b"", it), "those of step 1272 aren't all"),
    ("a bit that is missing", lambda it: re.sub(rb"\nflip 1272 pc 0x40000000 \d+", b"", it), "those of step 1272 aren't all"),
    ("bits out of turn", changed(b"flip 1272 pc 0x00000002", b"flip 1272 pc 0x00000004"), "stands there twice"),
    ("another mask", changed(b"flip 1272 pc 0x00000002", b"flip 1272 pc 0x00000003"), "those of step 1272 aren't all"),
    ("a step outside", changed(b"skip 1276 ", b"skip 1277 "), "outside of the sweep"),
    ("a step again", changed(b"skip 1273 ", b"skip 1271 "), "an edit out of turn"),
    ("a pair without pairs", lambda it: re.sub(rb"\n(flip 1272 pc 0x80000000 (\d+))", rb"\n\1\nskip 1272; skip 1274 \2", it),
     "more edits of a place than 33"),
    ("a step of 14 digits", changed(b"skip 1272 ", b"skip 99999999999999 "), "outside of the sweep"),
]


def furnish_firmware(room):
    for name in ("boot.elf", "boot-twice.elf", "boot.input", "station.elf", "station.input"):
        shutil.copy(EXAMPLES / "firmware" / name, room)


def check_text(tests, label, words, texts, **more):
    """What `explore` prints has each of these texts."""
    status, out, err = tests.run(words, **more)
    tests.check(label, next(((text, status, out, err) for text in texts if text not in out), ""))


def test_fault_tables(tests):
    """The merged table of parts is that of the program, and one that is wrong is refused."""
    for words in (SHORT, [*TWICE, "--at=55..67", "--faults=ones,skip,words", "--pairs=skip", "--step=3000"],
                  [*BOOT, "--at=0..1305", "--faults=skip", "--code-range=0x1021c..0x1024c", "--step=9000", "--with-output"]):
        whole = tests.sweep(*words)
        for count in (1, 3, 7, 50):
            status, out, err = tests.run([*words, f"--parts={count}", "--table=-"])
            is_well = out.encode() == whole and len(whole) > 1000
            tests.check(f"steps: {words[3]}, {count} parts", "" if is_well else (status, out[-300:], err))
    good = tests.file("good-steps", tests.sweep(*SHORT)).read_bytes()
    tests.check("steps: a good table", tests.run(["--from", "good-steps"])[2])
    rows = []
    for index, (label, change, text) in enumerate(WRONG):
        tests.file(f"wrong-steps-{index}", change(good))
        rows.append((f"wrong table of steps: {label}", ["--from", f"wrong-steps-{index}"], text))
    tests.refuse_all(rows)
    pairs = tests.sweep(*TWICE, "--at=55..60", "--faults=skip", "--pairs=skip", "--step=3000")
    for label, change in (("another first step", changed(b"skip 56; skip 58", b"skip 57; skip 58")),
                          ("out of turn", changed(b"skip 56; skip 58", b"skip 56; skip 56")),
                          ("beyond the steps", changed(b"skip 56; skip 60", b"skip 56; skip 61"))):
        tests.file("wrong-pairs", change(pairs))
        tests.refuses(f"wrong table of pairs: {label}", ["--from", "wrong-pairs"], "aren't all")
    words = tests.sweep(*BOOT, "--at=1270..1271", "--faults=words", "--step=2000")
    tests.file("wrong-words", re.sub(rb"flip 1271 (0x\w+) 0x00000002; flip 1272", rb"flip 1271 \1 0x00000002; flip 1273", words))
    tests.refuses("wrong table of words", ["--from", "wrong-words"], "those of step 1271 aren't all")
    memory = tests.sweep(*BOOT, "--at=1270..1271", "--faults=memory,pc", "--step=2000")
    tests.file("good-memory", memory)
    tests.check("steps: a good table of memory", tests.run(["--from", "good-memory"])[2])
    first = re.search(rb"\nflip 1271 0x(\w+) 0x00000001 \d+", memory)
    for label, change, text in (
            ("a bit that is missing", lambda it: it.replace(first[0], b"", 1), "those of step 1271 aren't all"),
            ("two bits at once", lambda it: re.sub(rb"\n(flip 1271 0x\w+) 0x00000001 ", rb"\n\1 0x00000003 ", it, count=1),
             "those of step 1271 aren't all"),
            ("a bit twice", lambda it: re.sub(rb"\n(flip 1271 0x\w+) 0x00000001 ", rb"\n\1 0x00000002 ", it, count=1),
             "stands there twice"),
            ("bytes out of turn", lambda it: it.replace(b"flip 1271 0x" + first[1], b"flip 1271 0xfffffffc"),
             "those of step 1271 aren't all"),
            ("no model of memory", changed(b"memory,pc", b"pc"), "more edits of a place than 32")):
        tests.file("wrong-memory", change(memory))
        tests.refuses(f"wrong table of memory: {label}", ["--from", "wrong-memory"], text)


def test_fault_parts(tests):
    """Parts of one sweep, of another one, kept, and elsewhere."""
    for index in (1, 2, 3):
        tests.file(f"steps-{index}", tests.sweep(*SHORT, f"--part={index}/3"))
    out = tests.run(["--table=-", "--from", "steps-2", "steps-1", "steps-3"])[1]
    tests.check("steps: parts by sweep --part", out.encode() != tests.sweep(*SHORT))
    tests.file("steps-other", tests.sweep(*[it.replace("skip,pc", "pc,skip") for it in SHORT], "--part=3/3"))
    tests.refuses("steps: a part of another sweep", ["--from", "steps-1", "steps-2", "steps-other"],
                  "steps 1270..1276, faults pc,skip, not steps 1270..1276, faults skip,pc")
    tests.refuses("steps: a part is missing", ["--from", "steps-1", "steps-3"], "missing: part 2/3")
    keep = [*SHORT, "--parts=3", "--keep=kept-steps"]
    whole = tests.run(keep)
    came = tests.run(keep, REPLAYCHECK=tests.wrapper("exit 4"))
    tests.check("steps: kept parts", came != whole)
    tests.refuses("steps: kept parts of another sweep", [*SHORT, "--code=verify", "--parts=3", "--keep=kept-steps"],
                  "steps 1270..1276, faults skip,pc, not steps 1270..1276, faults skip,pc, code 0x0001021c..0x0001024c")
    script = tests.run([*BOOT, "--at=1270..", "--faults=pc,skip", "--code=verify", "--pairs=skip", "--script=slurm"])[1]
    wanted = ("\nreplaycheck sweep --step=10000 --at=1270..1305 --faults=pc,skip --code-range=0x0001021c..0x0001024c --pairs=skip "
              "--input=boot.input boot.elf \\\n")
    tests.check("steps: a script", "" if wanted in script else script)
    if shutil.which("parallel"):
        tests.check("steps: --sshlogin", tests.run([*SHORT, "--parts=2", "--sshlogin=:"]) != whole)
    else:
        tests.left_out("steps: --sshlogin", "parallel")
    first = sorted(random.Random(3).sample(range(1, 8), 2))[0]
    out = tests.run([*SHORT, "--sample=2", "--seed=3", "--table=-"])[1]
    tests.check("steps: a sample", "" if f"part {first}/7\n" in out and "skip" in out else out[:300])


def test_guarantee(tests):
    """What the line `no error` says of each model, by itself and beside another one, and of pairs. A register that is set is in the way of
    the guarantee, and an instruction that is left out where some have 16 bits (clean_reports/specs/Marks.antt)."""
    tests.file("reads.elf", elf(assemble("nop; auipc t0, 0; lw a0, 16(t0); li a7, 93; ecall; .word 5")))
    for isa in ISAS:
        hinder = {"zero", "ones"} if isa == USUAL else {"zero", "ones", "skip", "pairs"}
        sweeps = [({it}, [f"--faults={it}", "--at=0"]) for it in MODELS]
        sweeps += [({"skip", "words"}, ["--faults=words,skip", "--at=0"]), ({"pc", "pairs"}, ["--faults=pc", "--pairs=skip", "--at=0..1"])]
        for models, words in sweeps:
            status, out, err = tests.run(["reads.elf", f"--isa={isa}", "--step=20", *words])
            found = re.findall(r"^no error by \d+ edits?( and the unedited run)?(: nothing that [^:]* step 20)?$", out, re.MULTILINE)
            is_well = len(found) == 1 and bool(found[0][1]) != bool(models & hinder)
            tests.check(f"what `no error` says of {' and '.join(sorted(models))} for {isa}", "" if is_well else (status, out[:600], err))


def test_fault_summary(tests):
    """What is said of edits: their lines, and the instructions at their steps."""
    check_text(tests, "steps: a summary", [*TWICE, "--at=0..", "--code=verify", "--faults=skip"], (
        f"boot-twice.elf with boot.input, verify: 26 edits, steps 0..2532, faults skip, {VERIFY}, step 10132\n",
        "step 10132 by default: 4 times the 2533 steps of the unedited run\n", "unedited: exited 1, no errors or leaks\n",
        f"          1  {'skip 2497':<26} 9: exited 0\n             step 2497: verify+0x50", *NAMED,
        "             + Syscall param exit(status) contains uninitialised byte(s) at 0x000101a0: _exit"))
    goal = [*TWICE, "--at=0..", "--code=verify", "--faults=skip", "--goal=exited 0"]
    for label, words, lines in (
            ("skips", goal, [r"skip 2497: verify\+0x50( \(boot\.c:\d+\))?" + LOADED.format("ra", 28)]),
            ("no names without the file", ["--from", "twice.table", "--goal=exited 0"], ["skip 2497"]),
            ("a function that is left out", [*goal[:-2], "--faults=skip", "--code-range=0x102c8..0x102d8", goal[-1]], [])):
        if "--code-range=0x102c8..0x102d8" in words:
            words = [it for it in words if it != "--code=verify"]
        tests.run([*goal[:-1], "--table=twice.table"])
        status, out, err = tests.run(words)
        found = out.splitlines()[:len(lines)]
        is_well = all(map(re.fullmatch, lines, found)) and f"reached by {len(lines)} of " in out and status == bool(lines) and not err
        tests.check(f"steps: a goal, {label}", "" if is_well else (status, out, err))
    status, out, err = tests.run([*goal, "--pairs=skip"])
    rows = [it for it in out.splitlines() if it.startswith("skip 2497; skip 2505")]
    places = (r"verify\+0x50[^,]*" + LOADED.format("ra", 28), r"verify\+0x54[^,]*" + LOADED.format("s0", 24))
    named = re.fullmatch("skip 2497; skip 2505: " + "; ".join(places), "\n".join(rows))
    tests.check("steps: a goal, pairs", "" if named and "reached by 24 of 348 edits" in out else (status, out, err))
    check_text(tests, "steps: words", [*BOOT, "--at=1274", "--faults=words", "--goal=exited 0", "--step=2000"],
               ("flip 1274 0x0001023c 0x00000004; flip 1275 0x0001023c 0x00000004: verify+0x20",))
    test_guarantee(tests)
    check_text(tests, "steps: to the end of the run", [*BOOT, "--at=1300..", "--faults=skip"], ("6 edits, steps 1300..1305, faults skip,",))
    check_text(tests, "steps: to the step of the sweep", [*BOOT, "--at=15..", "--faults=skip", "--step=20"], ("5 edits, steps 15..19, ",))
    check_text(tests, "steps: each model", [*BOOT, "--at=1274", f"--faults={','.join(MODELS)}", "--step=2000"],
               ("1215 edits, steps 1274..1274, ",))


def test_faults(tests):
    furnish_firmware(tests.room)
    for test in (test_fault_tables, test_fault_parts, test_fault_summary, test_swept_steps):
        test(tests)
