"""The cases of test-page about where heap and stack are: chosen, undone, kept and sent, and runs with others beside the program's."""
import json
import subprocess
import tempfile

from checkout import TOP
from guest_files import elf
from page_bench import expect, same, words_of
from page_hands import STORED
from page_pictures import swept
from page_state import Program, same_panes
from replaycheck.guest.assembly import assemble

SOME = {"heap": "0x90000000", "stack": "0x3fc81000..0x3fca0000"}
OPTIONS = ["--heap-region", SOME["heap"], "--stack-region", SOME["stack"]]
REMARK = " ".join(["# --isa rv32imac", *OPTIONS])
FOLDER = TOP / "examples" / "firmware"
FILES = {"program": FOLDER / "rv32imac" / "meter.elf", "input": FOLDER / "meter.input"}
METER = [str(FILES["program"]), "--input", str(FILES["input"]), "--isa=rv32imac"]
# A program without symbols that makes a block by its number, 2001, as a sum.
HIDDEN = elf([0x7D000893, 0x00188893, 0x00800513, 0x73, 0x05D00893, 0x513, 0x73])
WAITS = "replaycheck.shown && !replaycheck.isBusy"


def put(page, heap, stack):
    """Puts heap and stack somewhere, as a user does."""
    page.run("document.getElementById('regions').open = true")
    page.set("heap-region", heap)
    page.set("stack-region", stack)
    page.click_on("#regions-form button")


def opened_for(page, isa, regions):
    """Whether the page comes to have something open for an instruction set, with regions as it shows them."""
    page.until(f"{WAITS} && replaycheck.opened.isa === '{isa}' && document.getElementById('regions-told').textContent === '{regions}'")
    same("the set that is shown", page.run("document.getElementById('isa').value"), isa)


# Limits that are typed or named by a link, and what is said of one that there isn't.
LIMITS = [("0", "isn’t a last step"), ("2147483648", "isn’t a last step"), ("x", "isn’t a last step"), ("12000000", None)]
TURNS = 2 << 20  # of three steps


def limits(bench):
    """A run that is longer than the page looks at is cut off there, which it says; a button or a field has it look further, as the program
    does with the same limit. A link has the limit, undo goes back, and memory that runs out before is named."""
    program = elf(assemble(f"lui t0, {TURNS >> 12}; again: addi t0, t0, -1; sb t0, 0(sp); bne t0, zero, again; li a7, 93; ecall"))
    with bench.page() as page, tempfile.NamedTemporaryFile(suffix=".elf") as file:
        file.write(program)
        file.flush()
        bench.give(page, {"program": program}, name="long.elf")
        bench.settle(page)
        page.until("!document.getElementById('limit-told').hidden", 10)
        same("what is said", page.text("limit-text").strip(), "The run goes on after step 4,194,304, where this page stops looking.")
        same("how it ends", page.text("verdict").startswith("running at "), True)
        for text, said in LIMITS:
            page.run("document.getElementById('regions').open = true")
            page.set("limit", text)
            page.click_on("#regions-form button")
            if said:
                expect(said in page.text("regions-wrong"), f"{text}: {page.text('regions-wrong')!r}")
        limited(bench, page, file.name, 12000000)
        link = page.run("replaycheck.edits.link()")
        same("the lines", page.run("document.getElementById('lines').value").split("\n")[0], "# --isa rv32im --limit 12000000")
        expect("limit=12000000" in link, link)
        page.click_on("#undo")
        page.until("replaycheck.opened.target.furthest === 4194304", 30)
        page.click_on("#limit-more")
        limited(bench, page, file.name, 33554432)
        page.run("replaycheck.use('goto 33554433')")
        expect("was refused" in page.text("notice"), f"a step after the limit: {page.text('notice')!r}")
    with bench.page("?still#example=station&limit=2147483648") as page:
        page.until("document.getElementById('notice').textContent", 10)
        expect("isn’t a last step" in page.text("notice"), page.text("notice"))
    with bench.page("?still&memory=6000000") as page:
        page.run("replaycheck.opening.again({ furthest: 2147483647 })")
        writing = "again: addi t0, t0, -1; slli t1, t0, 3; sub t1, sp, t1; sb t0, -1(t1); bne t0, zero, again"
        bench.give(page, {"program": elf(assemble(f"lui t0, {1 << 10}; {writing}; li a7, 93; ecall"))})
        page.until("document.getElementById('notice').textContent.includes('Memory ran out')", 60)


def limited(bench, page, path, limit):
    """Whether the report and a look at a late step are the program's with this limit."""
    page.until(f"replaycheck.opened?.target.furthest === {limit} && replaycheck.shown && !replaycheck.isBusy", 60)
    page.until("document.getElementById('limit-told').hidden", 10)
    last = page.run("replaycheck.opened.last")
    same("how many steps", last, 3 * TURNS + 3)
    for step in (last - 2, last):
        page.run(f"replaycheck.go({step})")
        bench.settle(page)
        given = f"goto {step}\nreport\n".encode()
        ran = subprocess.run([bench.program, "look", f"--limit={limit}", path], input=given, capture_output=True, check=True)
        same(f"the report at step {step}", page.text("report-text").rstrip("\n"), ran.stdout.decode().removeprefix("ok\n").rstrip("\n"))


def told(regions):
    text = ", ".join(f"{name} {value}" for name, value in regions.items())
    return text and f": {text}"


def give_meter(bench, page, *roles):
    bench.give(page, {role: FILES[role].read_bytes() for role in roles}, name="meter.elf")


def regions_in_turn(bench):
    """A chip's file, as one makes it run: the button for its regions, that for its instruction set, and the fields for its stack. The
    report, each look and the sweep of its input are the program's with the same options. Undo goes back."""
    with bench.page() as page:
        page.set("isa", "rv32imac", "change")
        give_meter(bench, page, "program", "input")
        expect("`replaycheck run meter.elf --isa rv32imac --heap-region 0x90000000`" in page.text("notice"), page.text("notice"))
    with bench.page() as page:
        give_meter(bench, page, "program", "input")
        same("the button", page.run("document.querySelector('#notice button').textContent"), "Put the heap at 0x90000000")
        page.click_on("#notice button")
        opened_for(page, "rv32im", ": heap 0x90000000")
        same("the command then", page.text("board-command"), "replaycheck adopt meter.elf --heap-region 0x90000000")
        page.click_on("#board-sets button", 1)
        opened_for(page, "rv32imac", ": heap 0x90000000")
        bench.same_report(page, [*METER, *OPTIONS[:2]], "the heap elsewhere")
        page.run("replaycheck.use('patch 0x3fc90000 0x13\\ninput 0 0x38')")
        bench.settle(page)
        put(page, **SOME)
        opened_for(page, "rv32imac", told(SOME))
        expect(page.text("notice").startswith("1 edit didn’t fit"), f"of a patch of the stack it says {page.text('notice')!r}")
        same("the edit that stays", page.run("replaycheck.lines"), ["input 0 56"])
        bench.same_report(page, [*METER, *OPTIONS], "both elsewhere")
        expect("uninitialised" in page.text("report-text"), "the stack has no undefined bytes")
        same("memory that isn't loaded", page.run("[0x3fc80010, 0x3fc81000, 0x3fc9fffc].map((it) => replaycheck.opened.elf.loaded(it))"),
             [0, None, None])
        page.run("replaycheck.use('')")
        bench.settle(page)
        last = page.run("replaycheck.opened.last")
        same_panes(page, Program(bench, [*METER, *OPTIONS]), [*range(0, last + 1, 3)], "a run with both elsewhere")
        page.run("replaycheck.go(replaycheck.opened.follow)")
        bench.settle(page)
        page.set("sweep-values", "all")
        page.click_on("#sweep")
        swept(bench, page, [*METER, *OPTIONS], ["--bytes=0..2", f"--step={page.run('replaycheck.step')}"], 765)
        heap = {"heap": SOME["heap"]}
        for regions, lines in ((SOME, ["input 0 56"]), (heap, ["patch 0x3fc90000 0x00000013", "input 0 56"]), (heap, [])):
            page.click_on("#undo")
            opened_for(page, "rv32imac", told(regions))
            page.until(f"replaycheck.lines.join() === {json.dumps(','.join(lines))}")
            bench.same_report(page, [*METER, *(OPTIONS if regions == SOME else OPTIONS[:2])], f"undone to {lines} with {regions}")
        same("complaints", page.complaints(), [])


def regions_of_a_heap(bench):
    """A heap elsewhere has its blocks there: each look at a step is the program's. An example begins with the usual regions."""
    words = [*words_of("station"), *OPTIONS[:2]]
    with bench.open() as page:
        put(page, SOME["heap"], "")
        opened_for(page, "rv32im", ": heap 0x90000000")
        bench.same_report(page, words, "a heap elsewhere")
        same_panes(page, Program(bench, words), [*range(100, 1000, 90)], "a run with its heap elsewhere")
        expect("0x90000010" in page.run("replaycheck.machine.blocks.blocks.map((it) => replaycheck.machine.blocks.told(it)).join()"),
               "no block is in the heap")
        bench.give(page, {"program": HIDDEN})
        bench.settle(page)
        same("what is said of a heap elsewhere that is called", page.text("heap-told"), "")
        page.run("replaycheck.opening.choose('packet')")
        opened_for(page, "rv32im", "")
        page.click_on("#undo")
        opened_for(page, "rv32im", ": heap 0x90000000")


def regions_kept(bench):
    """Regions are in a link, in the browser's storage and in the lines of a text. A remark without regions means the usual ones, and a
    text without a remark leaves them as they are."""
    with bench.page() as page:
        page.run("localStorage.clear()")
        give_meter(bench, page, "program", "input")
        page.click_on("#notice button")
        opened_for(page, "rv32im", ": heap 0x90000000")
        page.run(f"replaycheck.use({json.dumps(REMARK + chr(10) + 'input 1 0x39')})")
        opened_for(page, "rv32imac", told(SOME))
        same("the lines", page.run("document.getElementById('lines').value"), f"{REMARK}\ninput 1 57\n")
        wanted = ["isa=rv32imac", "heap-region=0x90000000", "stack-region=0x3fc81000..0x3fca0000", "lines=input+1+57"]
        page.until("location.hash.includes('stack-region')")
        link = page.run("location.hash")
        expect("&".join(wanted) in link, f"the link is {link}")
        page.until(f"{STORED}?.includes('stack-region')")
        same("what is kept", page.run(STORED), "&".join(["program=meter.elf", "input=input.bin", *wanted]))
        page.run("replaycheck.use('# --heap-region 0x90000000 --isa rv32imac\\ninput 0 0x37')")
        opened_for(page, "rv32imac", ": heap 0x90000000")
        for _ in range(2):
            page.click_on("#undo")
            bench.settle(page)
        opened_for(page, "rv32imac", told(SOME))
        page.run("replaycheck.use('input 0 0x37\\ninput 1 0x38')")
        opened_for(page, "rv32imac", told(SOME))
    for way, address, roles in (("the storage", "?still", [["program"], ["input"]]), ("a link", f"?still{link}", [["program"], ["input"]]),
                                ("a link", f"?still{link}", [["program", "input"]])):
        with bench.browser.page(bench.address + address) as page:
            page.until("document.getElementById('notice').textContent.includes('“meter.elf” and “input.bin”')")
            for it in roles:
                give_meter(bench, page, *it)
            opened_for(page, "rv32imac", told(SOME))
            page.until("replaycheck.lines.length > 0")
            bench.same_report(page, [*METER, *OPTIONS], f"{way} with {roles}")
    with bench.open() as page:
        put(page, SOME["heap"], "")
        opened_for(page, "rv32im", ": heap 0x90000000")
        page.until("location.hash.includes('heap-region')")
        link = page.run("location.hash")
        same("a link to an example", link, "#example=station&heap-region=0x90000000")
        page.run("replaycheck.use('# --isa rv32imc\\ninput 1 5')")
        opened_for(page, "rv32imc", "")
    with bench.page(f"?still{link}") as page:
        opened_for(page, "rv32im", ": heap 0x90000000")
        bench.same_report(page, [*words_of("station"), *OPTIONS[:2]], "a link to an example with its heap elsewhere")


# What is typed in the fields, and what is said of it: of the heap, and of the stack.
WRONG = [
    ("no multiple", "0x90000100", "",
     "“0x90000100” isn’t where a heap can begin: that is a multiple of 0x10000000 from 0x10000000 to 0xd"),
    ("too high", "0xe0000000", "", "“0xe0000000” isn’t where a heap"), ("zero", "0", "", "“0” isn’t where a heap"),
    ("no number", "<b>x</b>", "", "“<b>x</b>” isn’t where a heap"),
    ("one end", "", "0x3fc81000", "“0x3fc81000” isn’t where a stack can be: that is A..B, multiples of 4096 at least 65536 apart."),
    ("three", "", "0x1000..0x20000..0x40000", "isn’t where a stack"), ("an end that is open", "", "0x1000..", "isn’t where a stack"),
    ("too small", "", "0x3fc81000..0x3fc82000", "isn’t where a stack"),
    ("the wrong way", "", "0x3fca0000..0x3fc81000", "isn’t where a"),
    ("beyond the end", "", "0xffff0000..4294967296", "isn’t where a stack"), ("no page", "", "0x3fc81004..0x3fca0000", "isn’t where a"),
    ("both", "1", "2",
     "“1” isn’t where a heap can begin: that is a multiple of 0x10000000 from 0x10000000 to 0xd0000000. “2” isn’t"),
    ("an overlap", "0x30000000", SOME["stack"],
     "Heap and stack overlap. The heap has 0x30000000 to 0x4fffffff, and the stack 0x3fc81000 to 0x3fc9ffff."),
]


def regions_refused(bench):
    """What can't be used is said at the fields, in a link and of a text; what is open stays, and so does what was typed."""
    with bench.open() as page:
        page.run("replaycheck.use('input 1 8')")
        bench.settle(page)
        for label, heap, stack, text in WRONG:
            put(page, heap, stack)
            expect(text in page.text("regions-wrong"), f"{label}: it says {page.text('regions-wrong')!r}")
            same(f"{label}: what was typed", page.run("['heap-region', 'stack-region'].map((it) => document.getElementById(it).value)"),
                 [heap, stack])
            same(f"{label}: where the focus is", page.run("document.activeElement.getAttribute('aria-invalid')"), "true")
            same(f"{label}: the lines", page.run("replaycheck.scenario.lines"), ["input 1 8"])
            remark = "".join(f" --{name}-region {it}" for name, it in (("heap", heap), ("stack", stack)) if it)
            page.run(f"replaycheck.use({json.dumps(f'# --isa rv32im{remark}')})")
            expect(text in page.text("notice"), f"a text, {label}: it says {page.text('notice')!r}")
        put(page, "", "")
        same("what is said of empty fields", page.run("document.getElementById('regions-wrong').hidden"), True)
        put(page, "0x10000000", "0x8000..0x20000")
        page.until("document.getElementById('notice').textContent.includes('The heap has 0x10000000 to 0x2fffffff, and the stack 0x00008')")
        same("what was typed where a file is in the way", page.run("document.getElementById('stack-region').value"), "0x8000..0x20000")
        same("what is open then", page.run("replaycheck.scenario.lines"), ["input 1 8"])
        bench.same_report(page, words_of("station"), "what is open then")
    with bench.page("?still#example=station&heap-region=5") as page:
        page.until("document.getElementById('notice').textContent.includes('“5” isn’t where a heap can begin')")


def regions_by_keys(bench):
    """Heap and stack by keys alone."""
    with bench.open() as page:
        page.focus("isa")
        page.press("Tab", "Enter", "Tab", *"0xa0000000", "Enter")
        opened_for(page, "rv32im", ": heap 0xa0000000")
        same("where the focus is", page.run("document.activeElement.id"), "heap-region")
        bench.same_report(page, [*words_of("station"), "--heap-region=0xa0000000"], "a heap by keys")
