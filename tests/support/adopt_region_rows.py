"""Rows of test-adopt: files that meet the regions of heap and stack, and those whose start file has a stack of its own."""
from adopt_rows import EXIT, code, lacking, status
from board_files import NO_TYPE, OBJECT, READ_RUN, board, function, segment
from replaycheck.guest.assembly import assemble

FLASH, MEMORY, TOP = 0x42000000, 0x3FC80000, 0x3FCA0000
START = f"lui sp, 0x3fca0; addi sp, sp, -16; lw a0, 0(sp); beq a0, zero, .+8; nop; li a0, 0; {EXIT}"
HEAP, STACK = "--heap-region 0x90000000", "--stack-region 0x3fc81000..0x3fca0000"
BY_HEAP = f"give the option {HEAP}, which puts the heap there\n"
OWN = f"stack: the start file's own, below 0x3fc9fff0: uninitialised values on it are found with {STACK}\n"


def chip(text=START, memory=0x20000, symbols=(), flags=0):
    """A file with code in flash, where the heap is usually, and a stack at the end of RAM."""
    return board([segment(FLASH, code(text), flags=READ_RUN), segment(MEMORY, bytes(4), memory)],
                 [function("_start", FLASH, 4 * len(assemble(text))), *symbols], FLASH, flags)


# A label, a file, options, the status, what is printed, and what isn't.
TOLD = [
    ("a heap's region", chip(), [], 1,
     ["needs an option, or a rebuild:\n", "in the heap's region", BY_HEAP, OWN, "which sets sp, becomes nop",
      f"board.elf will run with {HEAP} once it is cured\n"], []),
    ("the option", chip(), [HEAP], 1, [OWN, "can be cured"], ["needs an option"]),
    ("both options", chip(), [HEAP, STACK], 0, [f"board.elf will run with {HEAP} {STACK}\n"], ["stack:", "sets sp", "cured"]),
    ("a stack that no segment has", chip(memory=0x1000), [], 1, [OWN], []),
    ("a variable before the stack", chip(symbols=[function("table", MEMORY + 0x100, 0x5000, OBJECT, 2)]), [], 1,
     ["--stack-region 0x3fc86000..0x3fca0000\n"], []),
    ("one with too little space after it", chip(symbols=[function("table", MEMORY + 0x100, 0x10000, OBJECT, 2)]), [], 1, [BY_HEAP],
     ["--stack-region"]),
    ("the stack as a variable", chip(symbols=[function("stack", MEMORY + 0x8000, 0x18000, OBJECT, 2)]), [], 1,
     ["--stack-region 0x3fc88000..0x3fca0000\n"], []),
    ("a variable after it", chip(START.replace("-16", "-2047"), symbols=[function("table", TOP - 64, 64, OBJECT, 2)]), [], 1, [BY_HEAP],
     ["--stack-region"]),
    ("bytes of the file in it", board([segment(FLASH, code(START), flags=READ_RUN), segment(MEMORY, bytes(0x20000))],
                                      [function("_start", FLASH, 4)], FLASH), [], 1, [BY_HEAP], ["--stack-region"]),
    ("a stack by name", chip(f".word 0x00010001; {EXIT}", symbols=[function("__stack", TOP, 0, NO_TYPE)], flags=1), [], 1,
     [OWN.replace("0x3fc9fff0", "0x3fca0000 (__stack)"), BY_HEAP, f"board.elf won't run without --isa rv32imc {HEAP}\n"], []),
    ("both regions", board([segment(FLASH, code(EXIT), flags=READ_RUN), segment(0x7F000000, bytes(4))], [function("_start", FLASH, 8)],
                           FLASH), [], 1,
     [BY_HEAP, "give the option --stack-region 0x8f000000..0x90000000, which puts the stack there\n",
      "board.elf will run with --heap-region 0x90000000 --stack-region 0x8f000000..0x90000000\n"], []),
    ("where the heap would be put", board([segment(FLASH, code(EXIT), flags=READ_RUN), segment(0x90000000, bytes(4))],
                                          [function("_start", FLASH, 8)], FLASH), [], 1, ["--heap-region 0xa0000000, which"], []),
    ("a stack of its own where the heap would be put", board(
        [segment(FLASH, code(START.replace("0x3fca0", "0x90010")), flags=READ_RUN)], [function("_start", FLASH, 4)], FLASH), [], 1,
     ["--heap-region 0xa0000000, which", "--stack-region 0x8f010000..0x90010000\n"], []),
    ("a stack of its own in the heap", board(
        [segment(0x10000, code(START.replace("0x3fca0", "0x50000")), flags=READ_RUN)], [function("_start", 0x10000, 4)]), [], 1,
     ["which sets sp, becomes nop"], ["--stack-region"]),
    ("the option itself", board([segment(0x90000000, code(EXIT), flags=READ_RUN)], [function("_start", 0x90000000, 8)], 0x90000000),
     [HEAP], 1, ["leave the option --heap-region out\n", "board.elf will run as it is\n"], []),
    ("segments that overlap there", board([segment(FLASH, code(EXIT), flags=READ_RUN), segment(FLASH, bytes(4))],
                                          [function("_start", FLASH, 8)], FLASH), [], 1, ["that overlap", "board.elf won't run\n"], []),
]


def region_rows(rows):
    for label, data, options, wanted, texts, others in TOLD:
        done = rows.adopt(rows.file(data), *" ".join(options).split())
        faults = [f"'{it}' in: {done.stdout}" for it in others if it in done.stdout]
        rows.row(f"regions: {label}", [*status(done, wanted), *lacking(done.stdout + done.stderr, texts), *faults])
    path, both = rows.file(chip()), [*HEAP.split(), *STACK.split()]
    rows.row("regions: by the program", [
        *lacking(rows.run(path), ["image refused 29"]), *lacking(rows.run(path, *HEAP.split()), ["state exited 0", "ERROR SUMMARY: 0 "]),
        *lacking(rows.run(path, *both), ["state exited 0", "Conditional jump", "at 0x4200000c: _start"])])
    done, out = rows.cured(chip())
    rows.row("regions: with -o", [*status(done, 1), *lacking(done.stdout, [f"check.elf will run with {HEAP}\n"]),
                                  *lacking(rows.run(out, *HEAP.split()), ["state exited 0"])])
    done, out = rows.cured(chip(), *both)
    rows.row("regions: with -o, and nothing to cure", [*status(done, 0), *([] if out.read_bytes() == chip() else ["the file is changed"])])
