"""The step of a sweep of `replaycheck explore` for which none was asked, for tests/explore/test-explore."""
import shlex
import shutil

from guest_files import ENTRY, elf
from replaycheck.guest.assembly import assemble

LIMIT, USUAL, LEAST = 4194304, 1048576, 10000
WORDS = f"--words=0x{ENTRY:x}..0x{ENTRY + 16:x}"
EDITS = ["--bytes=0", "--values=0,2"]
NO_END = f"the unedited run doesn't end by step {LIMIT}"
# Reads a byte and makes `turns` turns; with the byte 0 it never ends. Its status is the byte. BEFORE and AFTER are its steps but for the
# turns, of which each has two: a number of turns from 2,048 on needs another step.
LOOP = """li a0, 0; li a1, 0x11000; li a2, 1; li a7, 63; ecall; lbu s1, 0(a1)
again: beq s1, zero, again
li t0, {turns}
turn: addi t0, t0, -1; bne t0, zero, turn
mv a0, s1; li a7, 93; ecall"""
BEFORE, AFTER, READ_STEP = 9, 3, 5
# Makes `turns` turns, 2,048 or more, and only then reads its byte, in the fifth step after the turns, uses it in the sixth and ends in the
# ninth. The two steps before the turns count among them here.
BOOT = """li t0, {turns}
turn: addi t0, t0, -1; bne t0, zero, turn
li a0, 0; li a1, 0x11000; li a2, 1; li a7, 63; ecall; lbu a0, 0(a1); li a7, 93; ecall"""
TURNS, TURN_WORD, FIRST_WORD, USING_WORD = 20000, ENTRY + 8, ENTRY + 16, ENTRY + 40


def looping(turns):
    """A program of this number of turns, and the step at which it ends, if its byte isn't 0."""
    words = assemble(LOOP.format(turns=turns))
    return elf(words, 0x2000, [("main", ENTRY, 4 * len(words))]), BEFORE + (turns >= 2048) + 2 * turns + AFTER


def bound(end):
    return f"4 times the {end} steps of the unedited run"


def since(end, first):
    """Why the step is that of a run which ends at one step, and in which the first edit shows at another one."""
    return f"the {end} steps of the unedited run and 3 times the {end - first} from the first edit on"


def more(end):
    return f"{LEAST} more than the {end} steps of the unedited run"


# Label, turns, the byte, the step at which the run ends, the step that is chosen, and why.
ROWS = [
    ("it ends early", 10, 1, 32, LEAST, f"{bound(32)}, at least {LEAST}"),
    ("it ends just below a quarter of the least", 1243, 1, 2498, LEAST, f"{bound(2498)}, at least {LEAST}"),
    ("it ends at a quarter of the least", 1244, 1, 2500, LEAST, bound(2500)),
    ("it ends just above a quarter of the least", 1245, 1, 2502, 10008, bound(2502)),
    ("it ends just below a third of the least", 1660, 1, 3332, 13328, bound(3332)),
    ("it ends just above a third of the least", 1661, 1, 3334, 13334, more(3334)),
    ("the edit shows a third of the least before the end", 1663, 1, 3338, 13338, more(3338)),
    ("the edit shows a step earlier than that", 1664, 1, 3340, 13345, since(3340, READ_STEP)),
    ("it ends late", 9000, 1, 18013, 72037, since(18013, READ_STEP)),
    ("the step is just below the limit", 524283, 1, 1048579, 4194301, since(1048579, READ_STEP)),
    ("the step would be just above the limit", 524284, 1, 1048581, LIMIT, f"{since(1048581, READ_STEP)}, at most {LIMIT}"),
    ("it ends after the step that is usual without an end", 1000000, 1, 2000013, LIMIT,
     f"{since(2000013, READ_STEP)}, at most {LIMIT}"),
    ("it ends one step before the limit", 2097145, 1, 4194303, LIMIT, f"{since(4194303, READ_STEP)}, at most {LIMIT}"),
    ("it would end one step after the limit", 2097146, 1, 4194305, USUAL, NO_END),
    ("it doesn't end", 10, 0, 32, USUAL, NO_END),
]
# A boot of 20,000 turns: label, which edits, the step that is chosen, and why. The boot ends at the step 40,011.
BOOTED = [
    ("the byte that is read after it", EDITS, 50011, more(40011)),
    ("all bytes, of which it reads the first", ["--values=0,2"], 50011, more(40011)),
    ("a byte that it doesn't read", ["--bytes=1", "--values=0,2"], 50011, more(40011)),
    ("the word that uses the byte", [f"--words=0x{USING_WORD:x}..0x{USING_WORD:x}"], 50011, more(40011)),
    ("the word that the byte is written over", ["--words=0x11000..0x11000"], 50011, more(40011)),
    ("a word that it doesn't use", ["--words=0x11004..0x11004"], 50011, more(40011)),
    ("the word of a turn", [f"--words=0x{TURN_WORD:x}..0x{TURN_WORD:x}"], 160038, since(40011, 2)),
    ("a range of words that begins between two", [f"--words=0x{FIRST_WORD - 3:x}..0x{USING_WORD:x}"], 50011, more(40011)),
    ("the word of a turn and the byte", [f"--words=0x{TURN_WORD:x}..0x{TURN_WORD:x}", *EDITS], 160038, since(40011, 2)),
    ("the first word", [f"--words=0x{ENTRY:x}..0x{ENTRY:x}"], 160044, bound(40011)),
    ("a step in it", ["--at=30000..30010", "--faults=skip"], 70044, since(40011, 30000)),
    ("a step in it and the byte", ["--at=30000..30010", "--faults=skip", *EDITS], 70044, since(40011, 30000)),
    ("from a step in it on, after the turns only", ["--at=30000..", "--faults=skip", f"--code-range=0x{FIRST_WORD:x}..0x{USING_WORD:x}"],
     50011, more(40011)),
    ("from a step in it on, at a turn only", ["--at=30000..30002", "--faults=skip", f"--code-range=0x{TURN_WORD:x}..0x{TURN_WORD:x}"],
     70044, since(40011, 30000)),
    ("a limit", ["--limit=50010", *EDITS], 50010, f"{more(40011)}, at most 50010"),
    ("a limit at the end", ["--limit=40011", *EDITS], 40011, f"{more(40011)}, at most 40011"),
    ("a limit before the end", ["--limit=40010", f"--words=0x{ENTRY:x}..0x{ENTRY:x}"], 40010,
     "the unedited run doesn't end by step 40010"),
    ("a limit below the least step", ["--limit=500", f"--words=0x{ENTRY:x}..0x{ENTRY:x}"], 500,
     "the unedited run doesn't end by step 500"),
]
# The same of a boot that is longer than the usual limit, of 2,500,000 turns: it ends at the step 5,000,011.
LONG_TURNS, LONG_END = 2500000, 5000011
LONG_BOOTED = [
    ("without a limit", [f"--words=0x{USING_WORD:x}..0x{USING_WORD:x}"], USUAL, NO_END),
    ("with a limit", ["--limit=6000000", *EDITS], 5010011, more(LONG_END)),
    ("with the greatest limit", ["--limit=2147483647", *EDITS], 5010011, more(LONG_END)),
    ("with a limit just after its end", ["--limit=5005000", *EDITS], 5005000, f"{more(LONG_END)}, at most 5005000"),
]
# Programs of few words that stop: label, words, the step at which they do.
STOPS = [("an illegal instruction", "nop; .word 0", 2), ("a break", "nop; nop; ebreak", 3),
         ("a jump to nowhere", "nop; jalr zero, 0(zero)", 3), ("an odd target", "li a0, 0x10002; jalr zero, 0(a0)", 3)]


def head_of(text):
    """The first two lines."""
    return f"{text}\n\n".split("\n")[:2]


def test_choice(tests):
    """The step that is chosen, by the end of the unedited run, what is said of it, and of edits that still run there."""
    for label, turns, byte, end, step, why in ROWS:
        program, counted = looping(turns)
        tests.file("loop.elf", program)
        tests.file("loop.input", bytes([byte]))
        status, out, err = tests.run(["loop.elf", "--input=loop.input", *EDITS])
        tried = [it for it in (0, 2) if it != byte]
        goes_on = byte == 0 or end > step
        running = sum(it == 0 or end > step for it in tried)
        edits = f"{len(tried)} edit{'s' * (len(tried) > 1)}"
        head = [f"loop.elf with loop.input: {edits}, bytes 0..0, values 0,2, step {step}", f"step {step} by default: {why}"]
        who = ["the unedited run"] * goes_on + [f"{running} edit{'s' * (running > 1)}"] * (running > 0)
        more = "; --step N looks further" if step < LIMIT else ""
        still = f"\nstill running at step {step}: {' and '.join(who)}{more}\n" if who else "still running"
        is_well = counted == end and head_of(out) == head and (still in out) == bool(who)
        tests.check(f"step: {label}", "" if is_well and not err else (counted, status, out, err))
    for label, text, end in STOPS:
        tests.file("stops.elf", elf(assemble(text)))
        out = tests.run(["stops.elf", f"--words=0x{ENTRY:x}"])[1]
        tests.check(f"step: it stops by {label}", "" if f"by default: {bound(end)}, at least {LEAST}" in head_of(out)[1] else out)


def test_boots(tests):
    """The step that is chosen where a long part of the run comes before the first edit."""
    tests.file("boot.input", b"\1\2")
    for turns, rows in ((TURNS, BOOTED), (LONG_TURNS, LONG_BOOTED)):
        words = assemble(BOOT.format(turns=turns))
        tests.file("boot.elf", elf(words, 0x2000, [("main", ENTRY, 4 * len(words))]))
        for label, edits, step, why in rows:
            status, out, err = tests.run(["boot.elf", "--input=boot.input", *edits])
            head, note = head_of(out)
            is_well = head.endswith(f", step {step}") and note == f"step {step} by default: {why}" and not err
            tests.check(f"step of a boot of {turns} turns: {label}", "" if is_well else (status, out, err))
    words = ["boot.elf", "--input=boot.input", *EDITS]
    status, out, err = tests.run([*words, f"--step={LONG_END}"])
    wanted = [f"boot.elf with boot.input: 2 edits, bytes 0..0, values 0,2, step {LONG_END}", "unedited: exited 1, no errors or leaks"]
    tests.check("step of a boot: one that is named goes beyond the limit", "" if head_of(out) == wanted else (status, out, err))


def test_said(tests):
    """Where the step was asked for, or isn't known to be the default, nothing is said of its choice."""
    tests.file("loop.elf", looping(9000)[0])
    tests.file("loop.input", b"\1")
    words = ["loop.elf", "--input=loop.input", *EDITS]
    for label, more, step, has_note in (("asked for", ["--step=500"], 500, False), ("as the default is", ["--step=72037"], 72037, False),
                                        ("the least there is", ["--step=0", WORDS], 0, False),
                                        ("of words only", ["--step=500", WORDS], 500, False), ("the default", [], 72037, True)):
        out = tests.run([*words, *more])[1]
        is_well = f", step {step}\n" in out and ("by default" in out) == has_note
        tests.check(f"step said: {label}", "" if is_well else out)
    tests.run([*words, "--table=whole"])
    for label, more in (("with the files", words[:2]), ("without them", [])):
        out = tests.run([*more, "--from", "whole"])[1]
        tests.check(f"step said: a table, {label}", "" if ", step 72037\n" in out and "by default" not in out and
                    "\nstill running at step 72037: 1 edit; --step N looks further\n" in out else out)
    for label, more, said in (("the default", [], "72037: 1 other edit; --step N looks further"),
                              ("at the limit", [f"--step={LIMIT}"], f"{LIMIT}: 1 other edit")):
        out = tests.run([*words, "--goal=exited 2", *more])[1]
        wanted = f"input 0 2\nstill running at step {said}\nreached by 1 of 2 edits: a line that begins with `exited 2`\n"
        tests.check(f"step said: a goal, {label}", "" if out == wanted else out)
    out = tests.run([*words, "--goal=running"])[1]
    tests.check("step said: a goal that runs", "still" in out)
    tests.check("step said: a picture", tests.run([*words, "--svg=-"])[1].count("values 0,2, step 72037<") != 2)
    came = tests.run(["loop.elf", "--input=-", *EDITS, "--table=-"], b"\1")
    tests.check("step said: an input that is read once", came[1].encode() != (tests.room / "whole").read_bytes())
    tests.file("one.supp", b"{\n one\n Memcheck:Addr1\n ...\n}\n")
    out = tests.run([*words, "--supp=one.supp"])[1]
    tests.check("step said: with suppressions", head_of(out)[1] != f"step 72037 by default: {since(18013, READ_STEP)}")


def test_parts(tests):
    """Each part has the one step that was chosen, whatever their number, and who makes them. One session looks at the unedited run."""
    tests.file("loop.elf", looping(9000)[0])
    tests.file("other.elf", looping(8000)[0])
    tests.file("loop.input", b"\1")
    files, step = ["loop.elf", "--input=loop.input"], 72052
    words = [*files, *EDITS, WORDS]
    whole = tests.sweep(f"--step={step}", *words[1:], "loop.elf")
    log = tests.file("log", b'#!/bin/sh\necho "$*" >>%b\nexec %b "$@"\n' % tuple(
        shlex.quote(str(it)).encode() for it in (tests.room / "logged", tests.program)))
    log.chmod(0o755)
    for count in (1, 2, 6):
        (tests.room / "logged").write_text("")
        out = tests.run([*words, f"--parts={count}", "--table=-"], REPLAYCHECK=str(log))[1]
        # But for the question whether the heap is seen.
        calls = [it for it in (tests.room / "logged").read_text().splitlines() if not it.startswith("exec ")]
        tests.check(f"step of parts: {count}", out.encode() != whole)
        others = [it for it in calls if not it.startswith(f"sweep --step={step} ")]
        tests.check(f"step of parts: {count}, one look", len(calls) != count + 1 or len(others) != 1 or not others[0].startswith("look "))
    for index in (1, 2, 3):
        tests.file(f"by-{index}", tests.sweep(f"--step={step}", f"--part={index}/3", *words[1:], "loop.elf"))
        tests.file(f"usual-{index}", tests.sweep(f"--part={index}/3", *words[1:], "loop.elf"))
    out = tests.run(["--table=-", "--from", "by-1", "by-2", "by-3"])[1]
    tests.check("step of parts: by sweep --part and --from", out.encode() != whole)
    tests.refuses("step of parts: one of another step", ["--from", "by-1", "usual-2", "by-3"], f"step {USUAL}, not step {step}")
    script = tests.run([*words, "--parts=3", "--script=slurm"])[1]
    tests.check("step of parts: a script", f"\n# step {step} by default: {bound(18013)}\n" not in script or
                f"\nreplaycheck sweep --step={step} " not in script)
    tests.check("step of parts: a script with a step", "by default" in tests.run([*words, "--step=9", "--script=slurm"])[1])
    if shutil.which("parallel"):
        out = tests.run([*words, "--parts=3", "--sshlogin=:", "--table=-"])[1]
        tests.check("step of parts: --sshlogin", out.encode() != whole)
    else:
        tests.left_out("step of parts: --sshlogin", "parallel")


def test_kept(tests):
    """A run that goes on from kept parts has their step, or is refused."""
    words = ["loop.elf", "--input=loop.input", *EDITS, WORDS, "--parts=3"]
    keep = [*words, "--keep=steps"]
    whole = tests.run(words)
    tests.run([*keep, "--jobs=1"], REPLAYCHECK=tests.wrapper('[ "$part" != 2/3 ] || exit 4'))
    came = tests.run(keep, REPLAYCHECK=tests.wrapper(""))
    tests.check("step of kept parts: it goes on", "" if came == whole and tests.made() == ["2/3"] else (came, tests.made()))
    tests.refuses("step of kept parts: another step", [*keep, "--step=72051"], "step 72052, not step 72051; delete steps/part-1-of-3")
    tests.refuses("step of kept parts: another program", ["other.elf", *keep[1:]], "it has another other.elf")
    tests.refuses("step of kept parts: another input", ["loop.elf", "--input=packet.input", *keep[2:]], "it has another packet.input")
    asked = [*words, "--step=500", "--keep=asked"]
    before = tests.run(asked)
    tests.refuses("step of kept parts: of one that was asked for", [*words, "--keep=asked"],
                  "step 500, not step 72052, the default: --step 500 continues it; delete asked/part-1-of-3")
    tests.check("step of kept parts: the same is asked for", tests.run(asked) != before)
    shutil.copy(tests.room / "other.elf", tests.room / "loop.elf")
    tests.refuses("step of kept parts: the program was changed", keep, "it has another loop.elf")


def test_steps(tests):
    for test in (test_choice, test_boots, test_said, test_parts, test_kept):
        test(tests)
