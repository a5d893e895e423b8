"""Rows of `test-adopt` for files with instructions of 16 bits: small ones by hand, and from C those that are tried for RV32IM, too."""
import shutil
import subprocess

from adopt_host_rows import CALL, TEXTS, executed
from adopt_rows import AT, EXIT, GCC, RAM, code, lacking, listed, status, unlisted
from board_files import NO_TYPE, READ_RUN, board, function, segment, words
from checkout import TOP

FIRMWARE = TOP / "examples" / "firmware"
SETS = ("rv32imc", "rv32imac")
NOP, RETURN, ZERO_A0, LOAD, MOVE_SP = 0x0001, 0x8082, 0x4501, 0x4388, 0x8116  # c.nop; c.jr ra; c.li a0,0; c.lw a0,0(a5); c.mv sp,t0
FUNCTION_AT = AT + 0x102  # no multiple of 4
WILL_RUN = "check.elf will run with --isa rv32imc\n"
GREET = """#include <stdio.h>
#include <stdlib.h>
#include <string.h>
int main(int argc, char **argv) {
  char *name = malloc(8);
  strcpy(name, argv[1]);
  printf("hello %s\\n", name);
  free(name);
  return 3;
}
"""


def mixed(*pieces):
    """Instructions: halves, and texts of those of 32 bits."""
    return b"".join(it.to_bytes(2, "little") if isinstance(it, int) else code(it) for it in pieces)


def halves(start, more=(), segments=(RAM,)):
    """A file whose first function is `_start`; `more` has a name and the pieces of a function at FUNCTION_AT."""
    content = mixed(*start).ljust(FUNCTION_AT - AT, b"\0")
    symbols = [function("_start", AT, len(mixed(*start)))]
    for name, *pieces in more:
        symbols.append(function(name, AT + len(content), len(mixed(*pieces))))
        content += mixed(*pieces)
    return board([segment(AT, content, flags=READ_RUN), *segments], symbols, flags=1)


def calling(name, *pieces, size=8, before=()):
    """A program that calls a function for a block of 8 bytes, and writes the byte after it."""
    begin = mixed(*before)
    away = FUNCTION_AT - AT - len(begin) - 2
    return halves([*before, NOP, f"jal ra, .+{away}", f"sb zero, {size}(a0)", ZERO_A0, EXIT], [(name, *pieces)])


# A label, a file, options, what is told, and what a run says of the adopted file.
CURED = [
    ("pvPortMalloc, at no word", calling("pvPortMalloc", "lui a0, 0x20", RETURN, before=["li a0, 8"]), [],
     ["pvPortMalloc at 0x00010102: is called malloc, too"], ["0 bytes after a block of size 8 alloc'd", "at 0x00010102: pvPortMalloc"]),
    ("_malloc_r in two instructions", calling("_malloc_r", NOP, NOP, RETURN, before=["li a1, 8"]), [],
     ["_malloc_r at 0x00010102: mv a0,a1; is called malloc, too, at 0x00010104"], ["0 bytes after a block of size 8 alloc'd"]),
    ("_malloc_r without room for a jump to malloc",
     halves(["li a1, 8", NOP, f"jal ra, .+{FUNCTION_AT - AT - 6}", "sb zero, 8(a0)", ZERO_A0, EXIT],
            [("_malloc_r", NOP, RETURN), ("malloc", ZERO_A0, RETURN)]), [],
     ["_malloc_r at 0x00010102: mv a0,a1; is called malloc, too, at 0x00010104"], ["0 bytes after a block of size 8 alloc'd"]),
    ("a number of 32 bits", calling("take", NOP, NOP, NOP, NOP, NOP, RETURN, before=["li a0, 4"], size=256),
     ["--heap", "take=calloc(64,a0)"], ["mv a1,a0; li a0,64; is called calloc"], ["0 bytes after a block of size 256 alloc'd"]),
    ("a stack by c.mv", halves(["lui t0, 0x20", MOVE_SP, "addi sp, sp, -16", "sw zero, 12(sp)", ZERO_A0, EXIT], segments=()), [],
     ["0x00010004 in _start: 0x00500133, which sets sp, becomes nop"], ["ERROR SUMMARY: 0 "]),
    ("a call of a host, at no word", halves(["lui a1, 0x20", "addi a1, a1, 16", "li a0, 0x20", NOP, CALL], segments=[TEXTS]), [],
     ["0x00010012 in _start: ebreak becomes a jump to what answers"], ["state exited 42"]),
    ("mret to what was written for it", halves(["lui t0, 0x10", "addi t0, t0, 22", ".word 0x34129073", NOP, ".word 0x30200073", "ebreak",
                                                ZERO_A0, EXIT]), [], ["mret becomes jr t0"], ["state exited 0"]),
    (".data in flash", halves(["lui t0, 0x30", "lw a0, 0(t0)", NOP, EXIT], segments=[segment(0x20000, words(42), physical=0x30000)]), [],
     ["4 bytes for 0x00020000: loaded at 0x00030000, too"], ["state exited 42"]),
    ("a store to a device, at no word", halves(["lui a5, 0x10000", NOP, "sb a5, 0(a5)", ZERO_A0, EXIT]), ["--devices", "/dev/null"],
     ["0x00010006 in _start: 0x00f78023 becomes a jump to what answers"], ["ERROR SUMMARY: 0 ", "output 1\n"]),
]
# What isn't cured: a label, a file, options, the status, what is told, and what isn't.
LEFT = [
    ("a load of 16 bits from a device", halves(["lui a5, 0x10000", LOAD, ZERO_A0, EXIT]), ["--isa", "rv32imc", "--devices", "/dev/null"], 1,
     ["0x10000000, the UART of QEMU's virt: from 0x00010004 in _start", "will run with --isa rv32imc as far as it waits for no device"],
     ["becomes"]),
    ("a function of one half", calling("_malloc_r", RETURN), ["--isa", "rv32imc"], 1,
     ["_malloc_r at 0x00010102 is too small for the 4 bytes that take it over"], []),
    ("atomics, for rv32imc", halves([NOP, ".word 0x00A5252F", NOP, EXIT]), ["--isa", "rv32imc"], 1,
     ["atomic instructions, at 0x00010002 in _start", "give the option --isa rv32imac", "will run with --isa rv32imac\n"], ["compressed"]),
    ("atomics, for rv32imac", halves([NOP, ".word 0x00A5252F", NOP, EXIT]), ["--isa", "rv32imac"], 0, ["will run with --isa rv32imac\n"],
     ["give the option"]),
    ("a half that no set has", halves([0x6008, ZERO_A0, EXIT]), ["--isa", "rv32imac"], 1,
     ["halves that are no instructions of RV32IMC, at 0x00010000 in _start", "will run with --isa rv32imac as far as"], ["won't run"]),
    ("regions that are given, and no set", halves([ZERO_A0, EXIT]), ["--heap-region", "0x90000000"], 1,
     ["give the option --isa rv32imc", "won't run without --isa rv32imc"], ["--heap-region"]),
    ("all that is needed is given", halves([ZERO_A0, EXIT]), ["--isa", "rv32imc", "--heap-region", "0x90000000"], 0,
     ["will run with --isa rv32imc --heap-region 0x90000000\n"], ["needs", "without"]),
    ("no function", board([segment(AT, mixed(ZERO_A0, EXIT), flags=READ_RUN)], [function("_start", AT, 0, NO_TYPE)], flags=1),
     ["--isa", "rv32imc"], 1, ["no symbols of functions", "will run with --isa rv32imc as far as"], ["compressed"]),
]


def cured_faults(rows, data, options, isa, told, printed):
    """Faults of what a file becomes: it is said, it runs, all changes are listed, and nothing is left to cure."""
    done, out = rows.cured(data, "--isa", isa, *options)
    yield from [*status(done, 0), *lacking(done.stdout, told)]
    if out.exists():
        yield from lacking(rows.run(out, f"--isa={isa}"), printed)
        yield from unlisted(data, out.read_bytes(), listed(done.stdout))
        again = [it for it in options if it not in ("--devices", "/dev/null")]
        yield from status(rows.adopt(out, "--isa", isa, *again), 0)


def small_rows(rows):
    for label, data, options, told, printed in CURED:
        rows.row(f"16 bits: {label}", cured_faults(rows, data, options, "rv32imc", [*told, WILL_RUN], printed))
    for label, data, options, wanted, told, untold in LEFT:
        done = rows.adopt(rows.file(data), *options)
        rows.row(f"16 bits: {label}", [*status(done, wanted), *lacking(done.stdout, told),
                                       *(f"'{it}' in: {done.stdout}" for it in untold if it in done.stdout)])


# ---- from C


def compiled(rows, march, name, *options):
    path = rows.room / name
    target = [f"-march={march}", "-mabi=ilp32", "--specs=picolibc.specs"]
    subprocess.run([GCC, *target, "-Og", "-g", "-o", path, *options], cwd=rows.room, check=True)
    return path


def built_board(rows, isa):
    """The board's example, of the same sources."""
    objects = []
    for path in ("board/start.S", "board/names.c", "board/heap.c", "system.c", "memory.c"):
        march = f"{isa}_zicsr_zifencei" if path.endswith(".S") else isa
        objects.append(compiled(rows, march, f"{path.replace('/', '-')}.o", "-c", FIRMWARE / path))
    return compiled(rows, isa, "halves.elf", "-nostartfiles", "-nostdlib", "-T", FIRMWARE / "board" / "board.ld", *objects).read_bytes()


def compiled_rows(rows):
    if not shutil.which(GCC):
        print(f"test-adopt: files with instructions of 16 bits from C: left out, there is no {GCC}")
        return
    (rows.room / "greet.c").write_text(GREET)
    given = (FIRMWARE / "board.input").read_bytes()
    longer = rows.file(given[:3] + bytes([45]) + given[4:], "longer.input")
    for isa in SETS:
        data, told = built_board(rows, isa), ["mv a0,a1; j malloc", "pvPortMalloc at 0x", "which sets sp, becomes nop", "mret becomes nop",
                                              "12 bytes for 0x80000000: loaded at 0x"]
        rows.row(f"the board's example, {isa}", cured_faults(rows, data, [], isa, [*told, f"will run with --isa {isa}\n"], []))
        out = rows.room / "check.elf"
        clean = rows.run(out, f"--isa={isa}", f"--input={FIRMWARE / 'board.input'}")
        rows.row(f"the board's example runs, {isa}", lacking(clean, ["state exited 0", "ERROR SUMMARY: 0 errors"]))
        wrong = rows.run(out, f"--isa={isa}", f"--input={longer}")
        rows.row(f"its overflow is found, {isa}", lacking(wrong, ["is 0 bytes after a block of size 16 alloc'd", ": pvPortMalloc"]))
        data = compiled(rows, isa, "halves.elf", "--crt0=semihost", "--oslib=semihost", "greet.c").read_bytes()
        told = ["ebreak becomes a jump to what answers", "which sets sp"]
        rows.row(f"a call of a host, {isa}", cured_faults(rows, data, [], isa, told, []))
        told = executed(rows, out, "harbour", options=("-q", "--isa", isa))
        rows.row(f"a host answers, {isa}", [] if told == (b"hello harbour\n", "", 3) else [str(told)])
        log = executed(rows, out, "harbours", options=("-q", "--isa", isa))[1]
        rows.row(f"its error is found, {isa}", lacking(log, ["Invalid write of size 1", "main (greet.c:6)"]))


def halves_rows(rows):
    small_rows(rows)
    compiled_rows(rows)
