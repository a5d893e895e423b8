"""The pictures of `replaycheck explore`, for tests/explore/test-explore."""
import re
import time
import xml.etree.ElementTree

from explore_cases import ERROR, SUM, Made, changed
from replaycheck.exploring.steps import byte_edits, edits_of


# The class of an outcome of OUTCOMES, by the first of these texts that is in it.
KINDS = {"Jump": "n2", "Invalid read": "n4", "stopped": "n5", "lost": "n8", "running": "o1", "exited 1": "o", "exited 0": "o0"}


def drawn(tests, made, words=()):
    """The rectangles of the picture of a table, each its class, place, size and title, and the text."""
    tests.file("drawn", made if isinstance(made, bytes) else made.part())
    status, out, err = tests.run([*words, "--svg=-", "--from", "drawn"])
    if status == 2:
        return [], err
    space = "{http://www.w3.org/2000/svg}"
    try:
        root = xml.etree.ElementTree.fromstring(out)
    except xml.etree.ElementTree.ParseError as fault:
        return [], f"it isn't well-formed: {fault}"
    rects = [(it.get("class"), *(float(it.get(name)) for name in ("x", "y", "width", "height")), it.find(f"{space}title").text)
             for it in root.iter(f"{space}rect") if it.find(f"{space}title") is not None]
    return rects, out


def test_picture(tests):
    rects, text = drawn(tests, Made(41, values="all"))
    tests.check("picture: a column for each of 41 places", "" if len({it[1] for it in rects}) == 41 else text[:300])
    marks = [it for it in rects if it[0].startswith("n")]
    tests.check("picture: marks of one value are seen", [it for it in marks if it[3] < 3 or it[4] < 3][:3] or not marks)
    tests.check("picture: offsets below", not all(f">{it}</text>" in text for it in (0, 10, 20, 40)))
    tests.check("picture: both kinds of pages", "prefers-color-scheme:dark" not in text)
    kinds = {(next(KINDS[text] for text in KINDS if text in it[5]), it[0]) for it in rects}
    tests.check("picture: a colour for each kind of the worst that is new", kinds if kinds != {(it, it) for it in KINDS.values()} else "")
    tests.check("picture: the colour-blind, of all these kinds", close_colours(text))
    greys = re.findall(r"\.o\d?\{fill:#(..)(..)(..)\}", text)
    is_grey = [max(int(it, 16) for it in grey) - min(int(it, 16) for it in grey) < 20 for grey in greys]
    tests.check("picture: what is harmless is grey", greys if len(greys) != 6 or not all(is_grey) else "")
    tests.check("picture: a title", "" if rects and all(re.match(r"input \d+ \d+( to \d+)?( \(was \d+\))?\n\d: ", it[5]) for it in rects)
                else rects[:2])
    for label, goal, wanted in (("an end", "exited 1", "exited 1"), ("an error", "Invalid read", "Invalid read"), ("none", "exited 9", "")):
        rects, text = drawn(tests, Made(41, values="all"), [f"--goal={goal}"])
        reached = [it for it in rects if it[0] == "g"]
        is_well = len(reached) == len([it for it in rects if wanted and f" {wanted}" in it[5]]) and (not wanted) == (not reached)
        is_told = not wanted or f"reaches the goal: a line that begins with `{goal}`" in text
        small = [it for it in reached if it[3] < 3 or it[4] < 3]
        tests.check(f"picture: a goal, {label}", "" if is_well and is_told and not small else (len(reached), text[:300]))
    tests.check("picture: the colour-blind, of a goal", close_colours(drawn(tests, Made(41, values="all"), ["--goal=exited 1"])[1]))
    few = ["exited 0", f"exited 0\n{ERROR}"]
    for label, count, few in (("1", 1, few), ("41", 41, None), ("400", 400, None), ("100,000", 100000, None)):
        outcomes = few or ["exited 0"] * 400 + [f"exited 0\n{ERROR}"]
        made = Made(count, values="5", outcomes=outcomes)
        rects, text = drawn(tests, made)
        marks = [it for it in rects if it[0].startswith("n")]
        wanted = min(320, count)
        bad = [it for it in marks if it[3] < 3 or it[4] < 3]
        is_drawn = len({it[1] for it in rects}) == wanted and len(text) < 2000000
        tests.check(f"picture: {label} places", "" if is_drawn else (len(rects), text[:300]))
        tests.check(f"picture: {label} places, marks are seen", bad[:3])
        lost = {outcome for place in made.rows for _, outcome in place if len(outcomes) - 1 == outcome} and not marks
        tests.check(f"picture: {label} places, the worst is seen", lost)
    rects, text = drawn(tests, Made(3, 5, "flips"))
    tests.check("picture: bytes and words", "" if "0x00010004" in text and "bit 31" in text else text[:300])
    wide = Made(3).part().replace(b"step 100", b"words 0x00000000..0xffffffff flips\nstep 100")
    begun, (rects, text) = time.process_time(), drawn(tests, wide)
    tests.check("picture: more words than anyone can read", time.process_time() - begun > 5 or "0x00000000" not in text)
    evil = changed(b"total", b'<script>alert("x")</script>&')(Made(6, seed=5, outcomes=["exited 0", f"exited 0\n{ERROR}"]).part())
    rects, text = drawn(tests, evil)
    tests.check("picture: a script in a name", "" if "&lt;script&gt;" in text and "<script" not in text else text[:300])
    tests.check("picture: the colour-blind", close_colours(text))


# ---- pictures of steps


def made_steps(count, bad=(), outcome=ERROR, model="skip", edits=None):
    """The table of a sweep of `count` steps, of which some have an outcome of their own; with these edits, or those of a model."""
    edits = edits or [edit for at in range(count) for edit in edits_of(model, at, None)]
    is_bad = [int(it.split(" ")[1]) in bad and not it.endswith("x5 0xffffffff") for it in edits]
    lines = ["sweep 2", f"program 9 {SUM}", f"input 0 {SUM}", f"supp 0 {SUM}", f"steps 0..{count - 1} {model}", f"step {count}",
             "output no", "part 1/1", "outcome 0", "exited 0", "unedited 0"]
    first = is_bad.index(True) if bad else len(edits)
    for index, (edit, is_one) in enumerate(zip(edits, is_bad)):
        lines += ["outcome 1", f"exited 0\n{outcome}"] * (index == first)
        lines.append(f"{edit} {int(is_one)}")
    tallies = [len(edits) - sum(is_bad)] + [sum(is_bad)] * bool(bad)
    lines += [f"tally {number} {tally}" for number, tally in enumerate(tallies)] + [f"end {len(edits)} {len(tallies)} 1"]
    return "".join(f"{line}\n" for line in lines).encode()


def overlaps(rects):
    """Two rectangles of one row that share a place."""
    rows = {}
    for it in sorted(rects, key=lambda it: (it[2], it[1])):
        before = rows.get(it[2])
        if before and before[1] + before[3] > it[1] + 0.01:
            return before, it
        rows[it[2]] = it
    return None


def test_made_steps(tests):
    """From one step to 100,000: all are drawn, runs of equal cells are one rectangle, and the worst is seen."""
    for count in (1, 40, 400, 100000):
        rects, text = drawn(tests, made_steps(count, {count // 2}))
        marks = [it for it in rects if it[0].startswith("n")]
        wide = sum(it[3] for it in rects)
        is_well = len(rects) == min(3, count) and len(marks) == 1 and marks[0][3] >= 3 and min(24, 960 // min(count, 320)) * min(
            count, 320) - 2 * 3 <= wide <= 963 and not overlaps(rects)
        tests.check(f"picture of steps: {count} skips", "" if is_well else (rects, text[:300]))
        named = f"skip {count // 2}\n1: exited 0; Invalid read of size 1"
        tests.check(f"picture of steps: {count} skips, the title", "" if marks and named in marks[0][5] else marks)
        shared = f"{count} steps share 320 columns, and the worst is seen" in text
        tests.check(f"picture of steps: {count} skips, what shares a column", shared != (count > 320))
    rects, text = drawn(tests, made_steps(700, set(range(300, 400)), model="ones"))
    marks, rows = [it for it in rects if it[0].startswith("n")], {it[2] for it in rects}
    is_well = len(rows) == 31 and len(marks) == 30 and len(rects) == 30 * 3 + 1 and not overlaps(rects)
    tests.check("picture of steps: registers", "" if is_well else (len(rows), len(marks), len(rects)))
    names = [f">{it}</text>" in text for it in ("ra", "sp", "a0", "t6")]
    tests.check("picture of steps: registers, their names", "" if all(names) else text[:300])
    first = f"steps {-(-137 * 700 // 320)} to "
    tests.check("picture of steps: registers, the title", "" if marks and marks[0][5].startswith(first) else marks[:1])
    for count, size, every in ((1, 1, 1), (40, 30, 1), (330, 170, 3), (100000, 1, 8)):  # bytes of `size` addresses, at each Nth step
        edits = [edit for at in range(0, count, every) for address in range(0x20003, 0x20003 + size)
                 if count == 1 or address % 7 != at % 7 for edit in byte_edits(at, address)]
        rects, text = drawn(tests, made_steps(count, {count // 2}, model="memory", edits=edits))
        marks, rows = [it for it in rects if it[0].startswith("n")], {it[2] for it in rects}
        is_seen = marks and min(it[3] for it in rects) >= 3 and ">0x00020003<" in text
        is_well = is_seen and len(rows) == min(160, size) and not overlaps(rects)
        tests.check(f"picture of steps: {size} bytes at {count} steps", "" if is_well else (len(rows), len(marks), len(rects), text[:300]))
        shared = f"{size} bytes share 160 rows, and the worst is seen" in text
        tests.check(f"picture of steps: {size} bytes at {count} steps, what shares a row", shared != (size > 160))
        named = f": flip {count // 2} 0x00020000 0x01000000\n1: exited 0; Invalid read of size 1"
        tests.check(f"picture of steps: {size} bytes at {count} steps, the title",
                    "" if size > 160 or 0x20003 % 7 == count // 2 % 7 or any(named in it[5] for it in marks) else marks[:3])
    edits = [edit for at in range(4) for edit in edits_of("words", at, "0x00010002", 32 if at < 2 else 16)]
    made = made_steps(4, {3}, model="words", edits=edits)
    rects, text = drawn(tests, made.replace(b"sweep 2\n", b"sweep 2\nisa rv32imc\n"))
    rows = [len([it for it in rects if it[2] == row]) for row in sorted({it[2] for it in rects})]
    tests.check("picture of steps: instructions of 32 and of 16 bits", "" if rows == [2] * 16 + [1] * 16 else (rows, text[:300]))
    tests.check("picture of steps: 16 bits of 32", "those of step 2 aren't all" not in drawn(tests, made)[1])
    rects, text = drawn(tests, made_steps(40, {3, 4, 20}), ["--goal=Invalid read"])
    reached = [it for it in rects if it[0] == "g"]
    tests.check("picture of steps: a goal", "" if len(reached) == 2 and "reaches the goal: a line that begins with `Invalid read`" in text
                else (rects, text[:300]))
    rects, text = drawn(tests, Made(3, 5, "flips", steps=20))
    wanted = ("0x00010004", "bit 31", "bits of pc, inverted", "skips: a column for each step", "a column for each place, a row for each")
    tests.check("picture of steps: beside bytes and words", "" if all(it in text for it in wanted) and "input 1 " in text else text[:300])
    evil = made_steps(9, {5}, ERROR.replace("total", '<script>alert("x")</script>&'))
    rects, text = drawn(tests, evil)
    tests.check("picture of steps: a script in a name", "" if "&lt;script&gt;" in text and "<script" not in text else text[:300])
    tests.check("picture of steps: the colour-blind", close_colours(text))
    tests.check("picture of steps: both kinds of pages", "prefers-color-scheme:dark" not in text)


def test_swept_steps(tests):
    """Of a program: instructions and functions are named."""
    table = tests.sweep("boot.elf", "--input=boot.input", "--at=1260..1299", "--faults=skip,registers,words,pc", "--step=2000")
    rects, text = drawn(tests, table, ["boot.elf", "--input=boot.input", "--goal=exited 0"])
    for label, wanted in (("a panel", "bits of the instruction, inverted for this step only"), ("a row's name", ">0x0001023c</text>"),
                          ("an instruction", ">verify+0x20"), ("a function", "<title>checksum_of</title>"),
                          ("a skip", "execution 1 of 0x0001023c: skip 1274: verify+0x20"), ("a register", "steps 1275 to 1279, a0: flip ")):
        tests.check(f"picture of steps: {label}", "" if wanted in text else text[:600])
    tests.check("picture of steps: no cell twice", overlaps(rects))
    few, text = drawn(tests, table)
    is_well = few and "verify+0x20" not in text and ">left out</text>" in text
    tests.check("picture of steps: without the file", "" if is_well else text[:300])
    table = tests.sweep("boot-twice.elf", "--input=boot.input", "--at=2495..2510", "--faults=skip", "--pairs=skip", "--step=4000")
    rects, text = drawn(tests, table, ["boot-twice.elf", "--input=boot.input", "--goal=exited 0"])
    pairs = [it for it in rects if re.match(r"first steps? \d+", it[5])]
    cells = sum(int(round(it[3] / 24 + 0.5)) for it in pairs)
    wanted = table.count(b"\nskip ") - len(re.findall(rb"\nskip \d+ \d", table))
    tests.check("picture of steps: pairs", "" if cells == wanted > 50 and not overlaps(pairs) else (cells, wanted))
    tests.check("picture of steps: a pair", "" if "first step 2497, second step 2505: skip 2497; skip 2505" in text else text[:300])
    table = tests.sweep("boot.elf", "--input=boot.input", "--at=1270..1280", "--faults=memory,pc", "--step=2000")
    rects, text = drawn(tests, table, ["boot.elf", "--input=boot.input", "--goal=exited 0"])
    for label, wanted in (("bytes", "memory: a row for each byte"), ("a byte's row", ">0x7fffff"), ("a function", "<title>verify</title>")):
        tests.check(f"picture of steps: {label}", "" if wanted in text else text[:600])


def close_colours(text):
    """Two colours of one page that a person who sees no red, no green or no blue takes for one."""
    blind = [((0.152, 1.053, -0.205), (0.115, 0.786, 0.099), (-0.004, -0.048, 1.052)),
             ((0.367, 0.861, -0.228), (0.280, 0.673, 0.047), (-0.012, 0.043, 0.969)),
             ((1.256, -0.077, -0.179), (-0.078, 0.931, 0.148), (0.005, 0.691, 0.304))]
    for style in re.search(r"<style>(.*?)</style>", text, re.S)[1].split("@media"):
        colours = {name: [int(value[i:i + 2], 16) for i in (0, 2, 4)] for name, value in
                   re.findall(r"\.([gno]\d?|o0)\{fill:#([0-9a-f]{6})\}", style)}
        for matrix in blind:
            seen = {name: [sum(a * b for a, b in zip(row, it)) for row in matrix] for name, it in colours.items()}
            for one in seen:
                for other in seen:
                    away = sum(abs(a - b) for a, b in zip(seen[one], seen[other]))
                    if one[0] in "gn" and other[0] == "o" and away < 40:
                        return one, other, away
    return ""
