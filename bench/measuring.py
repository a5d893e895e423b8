"""What the scripts that measure have in common. Importing it makes the modules of the tools and of the tests known."""
import os
import subprocess
import sys

for folder in ("tests/program", "tests/page", "tests/support", "build", "cli/python"):
    sys.path.insert(0, os.path.realpath(f"{__file__}/../../{folder}"))

from guest_files import ENTRY, elf  # noqa: E402
from replaycheck.guest.rv32 import ECALL, addi, branch, load, load_number, of_registers  # noqa: E402

READ = 63
T0, S1, A0, A1, A2, A7 = 5, 9, 10, 11, 12, 17
BUFFER = ENTRY + 0x1000


def repeat(turns, body):
    """A loop of so many turns, counted in t0: addi t0, t0, -1; bne t0, x0, to the body."""
    return load_number(T0, turns) + body + [addi(T0, T0, -1), branch(1, T0, 0, -4 * (len(body) + 1))]


def reading(count):
    """Reads so many bytes behind the program."""
    return load_number(A0, 0) + load_number(A1, BUFFER) + load_number(A2, count) + load_number(A7, READ) + [ECALL]


def adding(count):
    """A program that reads so many bytes at once, and adds up the first 64 of them, of which the sum is its status."""
    body = [load(4, A2, A1, 0), of_registers(0, 0, S1, S1, A2), addi(A1, A1, 1)]
    ends = [addi(A0, S1, 0)] + load_number(A7, 93) + [ECALL]
    return elf(reading(count) + load_number(A1, BUFFER) + load_number(S1, 0) + repeat(64, body) + ends, 0x1000 + count)


def spent(program, folder, file, words, lines=(), supp=b"", may_refuse=False, end=0):
    """Processor seconds and greatest memory in MiB of one run of a program's file. It must end with a status, 0 if no other is named, and
    refuse no line, unless it may refuse the file. Where it ends otherwise than with 0, what it says of that is dropped."""
    for place, content in [("program", file), ("supp", supp), ("typed", "".join(f"{line}\n" for line in lines).encode())]:
        with open(os.path.join(folder, place), "wb") as out:
            out.write(content)
    with open(os.path.join(folder, "typed"), "rb") as typed, open(os.path.join(folder, "said"), "wb") as said:
        child = subprocess.Popen([program, *words, "program", "--supp", "supp"], stdin=typed, stdout=said,
                                 stderr=subprocess.DEVNULL if may_refuse or end else None, cwd=folder)
        _, status, usage = os.wait4(child.pid, 0)
    child.returncode = os.waitstatus_to_exitcode(status)
    with open(os.path.join(folder, "said"), "rb") as said:
        refused = any(line.startswith(b"refused ") for line in said)
    if child.returncode not in ([0, 3] if may_refuse else [end]) or refused:
        sys.exit(f"{' '.join(words)}: status {child.returncode}{', and a line was refused' if refused else ''}")
    return usage.ru_utime + usage.ru_stime, usage.ru_maxrss / 1024
