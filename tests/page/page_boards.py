"""The cases of test-page about a board's file: what the page says of it, and the command that it names, beside what `replaycheck adopt`
finds. They need the assembler."""
import base64
import json
import os
import pathlib
import shlex
import subprocess
import tempfile

from board_files import NO_TYPE, OBJECT, READ_RUN, board, function, segment
from checkout import TOP
from page_bench import expect, same
from replaycheck.adopting.curing import Cured
from replaycheck.adopting.findings import Findings, physical
from replaycheck.adopting.regions import fitting, own_stack
from replaycheck.guest.elf import Elf
from replaycheck.guest.regions import USUAL_REGIONS, Regions

PLACE, NAME = 0x10000, "board.elf"
# Regions that are chosen before such a file is opened.
CHOSEN = (USUAL_REGIONS, Regions(0xA0000000, USUAL_REGIONS.stack), Regions(0x40000000, (0x3FC81000, 0x3FCA0000)),
          Regions(0x90000000, (0x3FC81000, 0x3FCA0000)), Regions(0x30000000, (0x8F000000, 0x90000000)),
          Regions(0xB0000000, (0x42000000, 0x43000000)), Regions(0x10000000, (0x90000000, 0x90010000)))
SHORT, ATOMIC = "rv32imc", "rv32imac"


def file_of(text, flags=0):
    from adopt_rows import code
    return board([segment(PLACE, code(text), flags=READ_RUN)], [function("_start", PLACE, 4)], PLACE, flags)


# A file's code, its flags, what is said of it, the sets that are offered, and the command.
FOUND = [
    ("a program that runs", "li a0, 0; li a7, 93; ecall", 0, None, [], ""),
    ("instructions of 16 bits", ".word 0x00010001", 1, "has instructions of 16 bits", [SHORT, ATOMIC], "replaycheck adopt board.elf"),
    ("one of 16 bits without the flag", "nop; .word 0x00010001", 0, "at an instruction of 16 bits", [SHORT, ATOMIC],
     "replaycheck adopt board.elf"),
    ("an atomic one", ".word 0x00b6252f", 0, "at an atomic instruction", [ATOMIC], "replaycheck adopt board.elf"),
    ("a control register", ".word 0x30002573", 0, "for control registers", [SHORT, ATOMIC], "replaycheck adopt board.elf -o adopted.elf"),
    ("a return from a trap", ".word 0x30200073", 0,
     "a return from a trap, which RV32IM doesn’t have. This command writes a file in which it is replaced:", [],
     "replaycheck adopt board.elf -o adopted.elf"),
    ("floating point", ".word 0x00052007", 0, "for floating point, which RV32IM doesn’t have. Compile it with -march=rv32im", [],
     "replaycheck adopt board.elf"),
    ("no instruction", ".word 0xffffffff", 0, "a word that is no instruction", [], "replaycheck adopt board.elf"),
    ("a call of a host", "ebreak", 0, "calls a host by semihosting", [], "replaycheck adopt board.elf -o adopted.elf"),
    ("a device", "lui a0, 0x10013; lw a1, 0(a0); li a7, 93; ecall", 0, "where a board has a device (SiFive's UART)", [],
     "replaycheck adopt board.elf --devices INPUT -o adopted.elf"),
]


def board_files(bench):
    """What is said of a board's file: sets that would do, each of which opens it again, and a command that adopts it."""
    with bench.page() as page:
        for label, text, flags, told, sets, command in FOUND:
            page.run("replaycheck.opening.again({ isa: 'rv32im' })")
            bench.give(page, {"program": file_of(text, flags)}, name=NAME)
            bench.settle(page)
            same(f"{label}: whether anything is said", not page.run("document.getElementById('board-told').hidden"), told is not None)
            expect((told or "") in page.text("board-text"), f"{label}: it says {page.text('board-text')!r}")
            same(f"{label}: sets", page.run("[...document.querySelectorAll('#board-sets button')].map((it) => it.textContent)"), sets)
            same(f"{label}: command", page.text("board-command"), command)
            for isa in sets[:1]:
                page.click_on("#board-sets button")
                page.until(f"replaycheck.opened?.isa === '{isa}'", 20)
                bench.settle(page)
                expect(isa not in page.run("replaycheck.opened.board?.sets ?? []"), f"{label}: {isa} is offered for itself")
        hostile = "<img src=x onerror=globalThis.hacked=1>.elf"
        page.run("replaycheck.opening.again({ isa: 'rv32im' })")
        bench.give(page, {"program": file_of("ebreak")}, name=hostile)
        bench.settle(page)
        same("a name with markup", page.text("board-command"), f"replaycheck adopt '{hostile}' -o adopted.elf")
        same("elements of it", page.run("document.querySelectorAll('#board-told img').length"), 0)
        names = page.run("""import('./files/boards.js').then(({ typed }) => ['a.elf', "it's", '-o', '$(reboot).elf'].map(typed))""")
        same("names as a shell takes them", names, ["a.elf", "'it'\\''s'", "'./-o'", "'$(reboot).elf'"])


# Codes, flags and sets with which the page names a command that writes a file.
DEVICE = "lui a0, 0x10013; lw a1, 0(a0); li a0, 0; li a7, 93; ecall"
WRITING = [("a device", DEVICE, 0, "rv32im"), ("a device, with 16 bits", DEVICE, 1, SHORT), ("a device, with atomic", DEVICE, 1, ATOMIC),
           ("a control register", ".word 0x30002573; li a0, 0; li a7, 93; ecall", 0, "rv32im"),
           ("a call of a host", "ebreak; li a0, 0; li a7, 93; ecall", 0, "rv32im")]


def commands_typed(bench):
    """A command that the page names for a board's file, typed as it is, writes the file that it names."""
    with bench.page() as page, tempfile.TemporaryDirectory() as folder:
        path = pathlib.Path(folder)
        for label, text, flags, isa in WRITING:
            data = file_of(text, flags)
            page.run(f"replaycheck.opening.again({{ isa: {json.dumps(isa)} }})")
            bench.give(page, {"program": data, "input": b"abc"}, name=NAME)
            bench.settle(page)
            command = page.text("board-command")
            expect(command.startswith("replaycheck adopt ") and command.endswith(" -o adopted.elf"), f"{label}: it names {command!r}")
            same(f"{label}: the set", f"--isa {isa}" in command, isa != "rv32im")
            (path / NAME).write_bytes(data)
            (path / "input.bin").write_bytes(b"abc")
            (path / "adopted.elf").unlink(missing_ok=True)
            words = [TOP / "cli/bin/replaycheck-adopt", *shlex.split(command)[2:]]
            ran = subprocess.run(words, cwd=folder, capture_output=True, text=True, env={**os.environ, "REPLAYCHECK": bench.program})
            expect((path / "adopted.elf").is_file(), f"{label}: {command!r} wrote nothing: {ran.stdout}{ran.stderr}")
            done = subprocess.run([bench.program, "run", f"--isa={isa}", path / "adopted.elf"], capture_output=True, text=True)
            expect(done.stdout.startswith("step "), f"{label}: the program says {done.stderr!r} of the file")


TAKEN = """(async () => {
  const [{ Elf }, { ownStack, unloaded, loadedToo }] = await Promise.all([import('./debuginfo/elf.js'), import('./files/start-file.js')]);
  const bytes = Uint8Array.from(atob('DATA'), (it) => it.charCodeAt(0)), elf = new Elf(bytes);
  const own = ownStack(elf), segments = unloaded(elf, { isa: 'rv32im', heap: HEAP, stack: STACK });
  const made = loadedToo(bytes, segments);
  return [own && [own.name, own.top, ...own.region], segments.map((it) => it.physical), [...made.subarray(bytes.length)],
    [...made.subarray(0, 52)]]; })()"""
RAM, END = 0x30000000, 0x30020000


def with_stack(*symbols, memory=0x20000, at=END, name="__stack"):
    """A file whose linker script names the end of a stack."""
    return board([segment(PLACE, bytes(16), flags=READ_RUN), segment(RAM, bytes(4), memory)],
                 [function("_start", PLACE, 16), function(name, at, 0, NO_TYPE), *symbols], PLACE)


def with_copies(*segments):
    return board([segment(PLACE, bytes(16), flags=READ_RUN), *segments], [function("_start", PLACE, 16)], PLACE)


# Files, whether their start file has a stack by a symbol, and how many segments of theirs are loaded at other addresses, too.
TAKEN_FOR_GRANTED = [
    ("a stack", with_stack(), True, 0), ("one of another name", with_stack(name="_estack"), True, 0),
    ("a name that says nothing", with_stack(name="stack"), False, 0), ("a stack outside segments", with_stack(memory=4), True, 0),
    ("an end that is no multiple of 16", with_stack(at=END - 20), True, 0), ("an end of 0", with_stack(at=0), False, 0),
    ("a variable before it", with_stack(function("table", RAM + 0x100, 0x5000, OBJECT, 2)), True, 0),
    ("one with too little space after it", with_stack(function("table", RAM + 0x100, 0x1F000, OBJECT, 2)), False, 0),
    ("the stack as a variable", with_stack(function("area", RAM + 0x8000, 0x18000, OBJECT, 2)), True, 0),
    ("a variable in its end", with_stack(function("table", END - 28, 16, OBJECT, 2), at=END - 20), False, 0),
    ("copied bytes", with_copies(segment(RAM, b"data", physical=0x20000000)), False, 1),
    ("two of them", with_copies(segment(RAM, b"data", physical=0x20000000), segment(RAM + 64, b"more", physical=0x20000004)), False, 2),
    ("two at one place", with_copies(segment(RAM, b"data", physical=0x20000000), segment(RAM + 64, b"more", physical=0x20000002)),
     False, 1),
    ("copied from the heap", with_copies(segment(RAM, b"data", physical=USUAL_REGIONS.heap)), False, 0),
    ("copied from the stack", with_copies(segment(RAM, b"data", physical=USUAL_REGIONS.stack[0])), False, 0),
    ("copied from what is loaded", with_copies(segment(RAM, b"data", physical=PLACE)), False, 0),
    ("copied from itself", with_copies(segment(RAM, b"data")), False, 0),
    ("no bytes", with_copies(segment(RAM, b"", 64, 0x20000000)), False, 0),
    ("beyond the last address", with_copies(segment(RAM, b"data", physical=0xFFFFFFFE)), False, 0),
]


def start_files(bench):
    """What a start file takes for granted, its stack by a symbol and bytes that it copies, is what `adopt` finds, and the copy that loads
    these bytes is the file that it writes; buttons open the file so."""
    with bench.page() as page:
        for label, data, has_stack, count in TAKEN_FOR_GRANTED:
            found = Elf(data, USUAL_REGIONS)
            own, (segments, _), cured = own_stack(found, []), physical(found), Cured(found)
            same(f"{label}: a stack and copies by `adopt`", [own is not None, len(segments)], [has_stack, count])
            cured.load_too([(load.offset, load.paddr, load.filesz, load.flags, load.align) for load in segments])
            script = (TAKEN.replace("DATA", base64.b64encode(data).decode()).replace("HEAP", str(USUAL_REGIONS.heap))
                      .replace("STACK", json.dumps(USUAL_REGIONS.stack)))
            stack = own and [own.name, own.top, *own.region]
            same(label, page.run(script), [stack, [load.paddr for load in segments], [*cured.data[len(data):]], [*cured.data[:52]]])
        stack_and_copies(bench, page)


START = "lui sp, 0x30020; addi sp, sp, -16; sw zero, 0(sp); lui a0, 0x20100; lw a1, 0(a0); li a0, 0; li a7, 93; ecall"


def stack_and_copies(bench, page):
    """The buttons of a file that has both."""
    from adopt_rows import code
    data = board([segment(PLACE, code(START), flags=READ_RUN), segment(0x20000000, b"data", physical=0x20100000)],
                 [function("_start", PLACE, 32), function("__stack", END, 0, NO_TYPE)], PLACE)
    bench.give(page, {"program": data}, name=NAME)
    bench.settle(page)
    offers = page.run("[...document.querySelectorAll('#offers li')].map((it) => it.textContent)")
    same("what is offered", len(offers), 2)
    expect("below 0x30020000 (__stack)" in offers[0] and "4 bytes for 0x20000000 to 0x20100000" in offers[1], offers)
    same("errors before", page.run("replaycheck.shown.report.contexts"), 2)
    page.click_on("#offers button")
    page.until("replaycheck.opened?.target.stack[1] === 0x30020000 && replaycheck.shown && !replaycheck.isBusy", 20)
    same("errors with the stack there", page.run("replaycheck.shown.report.contexts"), 1)
    page.click_on("#offers button")
    page.until("replaycheck.opened?.files.program.name === 'board.loaded.elf' && replaycheck.shown && !replaycheck.isBusy", 20)
    same("errors with the bytes loaded", page.run("replaycheck.shown.report.contexts"), 0)
    same("what is offered then", page.run("document.querySelectorAll('#offers li').length"), 0)
    expect("is a copy of “board.elf”" in page.text("notice"), page.text("notice"))


# Codes that poll a device, their flags and sets, what is offered, and the edits that it makes. The device is SiFive's UART.
EXIT = "li a0, 0; li a7, 93; ecall"
POLLING = [
    ("a loop", f"lui a0, 0x10013; lw a1, 0(a0); beq a1, zero, .-4; {EXIT}", 0, "rv32im",
     "No device answers 1 load, at 0x00010004: at 0x10013000 a board has one (SiFive's UART), and the run doesn’t end within 10,000 steps.",
     ["patch 0x00010004 0xfff00593"]),
    ("two loads of bytes", f"lui a0, 0x10013; lb a1, 4(a0); lbu a2, 0(a0); add a1, a1, a2; beq a1, zero, .-12; {EXIT}", 0, "rv32im",
     "No device answers 2 loads, at 0x00010004 and 0x00010008: at ", ["patch 0x00010004 0xfff00593", "patch 0x00010008 0xfff00613"]),
    ("one of 16 bits", f"lui a0, 0x10013; .word 0x0001410c; beq a1, zero, .-4; {EXIT}", 1, SHORT,
     "No device answers 1 load, at 0x00010004: at ", ["patch16 0x00010004 0x55fd"]),
    ("a store", f"lui a0, 0x10013; sw zero, 0(a0); {EXIT}", 0, "rv32im", None, []),
    ("what is no device", f"lui a0, 0x60000; lw a1, 0(a0); {EXIT}", 0, "rv32im", None, []),
    ("a load of nothing", f"lui a0, 0x10013; lw zero, 0(a0); {EXIT}", 0, "rv32im", None, []),
]


def polled_devices(bench):
    """Of loads of a device that a run has errors at, the page says where they are, and a button has each give all ones, as edits."""
    with bench.page() as page, tempfile.NamedTemporaryFile(suffix=".elf") as file:
        for label, text, flags, isa, told, edits in POLLING:
            data = file_of(text, flags)
            page.run(f"replaycheck.opening.again({{ isa: '{isa}', furthest: 10000 }})")
            bench.give(page, {"program": data}, name=NAME)
            bench.settle(page)
            offers = page.run("[...document.querySelectorAll('#offers li')].map((it) => it.textContent)")
            same(f"{label}: whether anything is offered", len(offers), int(told is not None))
            if told is None:
                continue
            expect(offers[0].startswith(told), f"{label}: it says {offers[0]!r}")
            page.click_on("#offers button")
            pathlib.Path(file.name).write_bytes(data)
            bench.same_report(page, [file.name, f"--isa={isa}"], f"{label}: the report then")
            same(f"{label}: the edits", page.run("replaycheck.scenario.lines"), edits)
            same(f"{label}: how the run ends", page.run("replaycheck.shown.report.state"), "exited 0")


def region_files(bench):
    """A file that meets the region of heap or stack: the options that the page names are those of `adopt`, unless it knows the start
    file's own stack; and the program takes the file with them."""
    from adopt_region_rows import TOLD
    count = 0
    with tempfile.TemporaryDirectory() as folder:
        path = pathlib.Path(folder, NAME)
        for label, data, options, *_ in TOLD:
            found = Findings(data, [], frozenset())
            if options or not any(it.by_option for it in found.obstacles) or found.isa_option:
                continue
            count += 1
            with bench.page() as page:
                region_file(bench, page, label, data, path, found)
    expect(count > 3, f"{count} files alone were tried")
    with bench.page() as page:
        for label, data in {it[0]: it[1] for it in TOLD}.items():
            want = [fitting(Elf(data, it), None) for it in CHOSEN]
            same(f"{label}: where the regions can be", fitting_on(page, data), [it and [it.heap, *it.stack] for it in want])


def fitting_on(page, data):
    """Where the page would have heap and stack for a file, for each of some regions that are chosen."""
    text, chosen = base64.b64encode(data).decode(), [{"isa": "rv32im", "heap": it.heap, "stack": it.stack} for it in CHOSEN]
    return page.run(f"""(async () => {{
      const [{{ Elf }}, {{ fitting }}] = await Promise.all([import('./debuginfo/elf.js'), import('./files/boards.js')]);
      const elf = new Elf(Uint8Array.from(atob('{text}'), (it) => it.charCodeAt(0)));
      return {json.dumps(chosen)}.map((it) => fitting(elf, it)).map((it) => it && [it.heap, ...it.stack]); }})()""")


def region_file(bench, page, label, data, path, found):
    """What is said of one, and the button that puts the regions there."""
    bench.give(page, {"program": data}, name=NAME)
    told, buttons = page.text("notice"), page.run("document.querySelectorAll('#notice button').length")
    same(f"{label}: buttons", buttons, int(not found.hopeless()))
    if found.hopeless():
        expect(" --" not in told, f"{label}: it says {told!r}")
        return
    expect(f"`replaycheck run {NAME} --" in told and f"`replaycheck adopt {NAME}`" in told, f"{label}: it says {told!r}")
    named = told.split(f"`replaycheck run {NAME} ")[1].split("`")[0]
    if not found.own:
        same(label, named, found.regions.told)
    path.write_bytes(data)
    ran = subprocess.run([bench.program, "run", *named.split(), "--step", "100", path], capture_output=True, text=True)
    same(f"{label}: {named}", ran.stderr, "")
    page.click_on("#notice button")
    page.until("replaycheck.shown")
    same(f"{label}: the lines", page.run("document.getElementById('lines').value"), f"# --isa rv32im {named}\n")
    bench.same_report(page, [path, *named.split()], f"{label}: the report")
