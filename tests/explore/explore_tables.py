"""Tables of parts, and tables that are wrong, for tests/explore/test-explore."""
import random
import resource
import time

from explore_cases import ERROR, LEAK, WRONG_TABLES, Made, changed
from replaycheck.endings import Fault
from replaycheck.exploring.merging import Merged, in_order, sources_in

HEAP, STACK = ["heap-region 0x90000000"], ["stack-region 0x00020000..0x00040000"]

# ---- the merge


def merged(tests, tables):
    """The table that these are parts of, or what is said of them."""
    paths = []
    for index, table in enumerate(tables):
        paths.append(tests.file(f"merged-{index}", table))
    told = []
    try:
        for _ in Merged(in_order([it for path in paths for it in sources_in(path, path.name)])).places(told.append):
            pass
    except Fault as fault:
        return str(fault).encode()
    return b"".join(told)


def test_merge(tests):
    """Parts are the whole, whatever their number and order."""
    sweeps = [("a list", Made(43)), ("bytes and words", Made(17, 23, "flips")), ("all values", Made(3, 0, "all")),
              ("one place", Made(1)), ("words that aren't loaded", Made(1, 40)),
              ("bytes, words and steps", Made(5, 7, "flips", steps=30)), ("bytes for rv32imc", Made(5, isa="rv32imc")),
              ("steps for rv32imc", Made(5, steps=9, isa="rv32imc")),
              ("bytes, words and steps for rv32imc", Made(5, 7, "flips", steps=9, isa="rv32imc")),
              ("bytes for rv32imac", Made(5, isa="rv32imac")), ("bytes with a heap region", Made(5, regions=HEAP)),
              ("sides", Made(43, has_sides=True)), ("sides for rv32imc", Made(5, isa="rv32imc", has_sides=True)),
              ("steps for rv32imc with regions", Made(5, steps=9, isa="rv32imc", regions=HEAP + STACK))]
    for label, made in sweeps:
        whole, chance = made.part(), random.Random(3)
        for count in range(1, 51) if label in ("a list", "bytes and words", "bytes, words and steps") else (1, 2, 7, 50):
            tables = [made.part(index, count) for index in range(1, count + 1)]
            chance.shuffle(tables)
            came = merged(tests, tables)
            tests.check(f"merge: {label}, {count} parts", "" if came == whole else came[-300:])
    made = Made(43)
    cuts = [made.part(1, 2), made.part(3, 4), made.part(7, 8), made.part(8, 8)]
    tests.check("merge: parts of several cuts", merged(tests, cuts) != made.part())
    for name in ("a", "b"):
        tests.file(name, b"".join(made.part(index, 4) for index in ((1, 2, 4) if name == "a" else (3,))))
    status, out, err = tests.run(["--table=-", "--from", "a", "b"])
    tests.check("merge: tables one after another in a file", (status, err) if out.encode() != made.part() else "")
    status, out, err = tests.run(["--table=-", "--from", "-"], made.part())
    tests.check("merge: standard input", (status, err) if out.encode() != made.part() else "")


def test_parts_refused(tests):
    """Parts that aren't those of one sweep, or not all."""
    made = Made(20)
    tables = {f"p{index}": made.part(index, 5) for index in range(1, 6)}
    tables.update(half=made.part(2, 2), first=made.part(1, 2), third=made.part(3, 4), other=Made(20, seed=2).part(2, 5),
                  short=Made(20, isa="rv32imc").part(3, 5), atomic=Made(20, isa="rv32imac").part(3, 5),
                  heap=Made(20, regions=HEAP).part(3, 5), stack=Made(20, regions=STACK).part(3, 5),
                  values=Made(20, values="3,5,8").part(3, 5),
                  step=made.part(3, 5).replace(b"step 100", b"step 99"),
                  digest=changed(b"program 9 e3", b"program 9 e4")(made.part(3, 5)),
                  unedited=changed(b"outcome 0\nexited 0", b"outcome 0\nexited 9")(Made(20, seed=4, outcomes=["exited 0"]).part(3, 5)))
    tables["same"] = tables["p2"].replace(b"input 5 3 0", b"input 5 3 1", 1)
    for name, table in tables.items():
        tests.file(name, table)
    five = [f"p{index}" for index in range(1, 6)]
    tests.refuse_all([(f"parts: {label}", ["--from", *names], text) for label, names, text in [
            ("a missing part", five[:2] + five[3:], "missing: part 3/5"), ("the last part", five[:4], "missing: part 5/5"),
            ("the same part twice", [*five, "p2"], "an overlap: part 2/5 is in p2 (part 2/5) and in p2"),
            ("two tables with one edit and two outcomes", [*five, "same"], "an overlap: part 2/5"),
            ("a gap between cuts", ["first", "p4", "p5"], "a gap: no table has the places 10 to 11"),
            ("a gap at the end", ["first", "third"], "a gap: no table has the places 15 to 19"),
            ("an overlap of cuts", [*five, "half"], "an overlap: the places from"),
            ("other values", [*five[:2], "values", *five[3:]], "of another sweep"),
            ("another step", [*five[:2], "step", *five[3:]], "step"),
            ("another instruction set", [*five[:2], "short", *five[3:]], "--isa rv32imc, not rv32im"),
            ("one with atomic instructions", [*five[:2], "atomic", *five[3:]], "--isa rv32imac, not rv32im"),
            ("another heap region", [*five[:2], "heap", *five[3:]],
             "--heap-region 0x90000000, not the usual regions of heap and stack"),
            ("another stack region", [*five[:2], "stack", *five[3:]], "--stack-region 0x00020000..0x00040000, not the usual"),
            ("another program", [*five[:2], "digest", *five[3:]], "another program, 9 bytes with the digest"),
            ("another unedited run", [*five[:2], "unedited", *five[3:]], "its unedited run is another one")]])


def spent():
    """The seconds of processors that all children so far have taken, which other work on the machine makes little longer."""
    used = resource.getrusage(resource.RUSAGE_CHILDREN)
    return used.ru_utime + used.ru_stime


def test_wrong_tables(tests):
    made = Made(6, seed=5, outcomes=["exited 0", f"exited 0\n{ERROR}", f"exited 3\n{LEAK}"])
    tests.check("a good table", tests.run(["--from", tests.file("good", made.part())])[0] != 1)
    begun, rows = spent(), []
    for index, (label, change, text) in enumerate(WRONG_TABLES):
        tests.file(f"wrong-{index}", change(made.part()))
        rows.append((f"wrong table: {label}", ["--from", f"wrong-{index}", f"--svg=wrong-{index}.svg"], text))
    tests.refuse_all(rows)
    tests.check("wrong tables: time", spent() - begun > 60)
    tests.check("wrong tables: no picture", list(tests.room.glob("wrong-*.svg")))
    tests.file("many", b"sweep 1\n" * 2000000)
    begun = time.process_time()
    tests.refuses("wrong table: millions of heads", ["--from", "many"], "line 2: ")
    tests.file("many", b"".join(Made(1).part(index, 20000) for index in (1, 20000)) * 2 + b"sweep 1\n" * 1000000)
    tests.refuses("wrong table: millions of heads behind tables", ["--from", "many"], "comes here")
    tests.refuses("wrong table: an endless line", ["--from", "/dev/zero"], "a line of more than")
    odd = tests.file("odd\x1b[31m", b"")
    tests.refuses("wrong table: a name with control bytes", ["--from", odd.name], "odd\\x1b[31m: it is empty")
