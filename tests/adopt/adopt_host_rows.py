"""Rows of `test-adopt` for calls of a host by semihosting: what the added code answers, beside what qemu-system-riscv32
printed, and hostile files."""
import os
import re
import shutil
import subprocess
import struct

from adopt_rows import AT, GCC, code, firmware, lacking, listed, status, unlisted
from board_files import OBJECT, READ_RUN, board, function, segment, words
from checkout import TOP
from replaycheck.adopting.host_handler import code_of, text_of

SEQUENCE = [0x01F01013, 0x00100073, 0x40705013]
CALL = f".word {', '.join(map(hex, SEQUENCE))}"
# Instructions that write a text by operation 4 and exit with 42 by operation 0x20.
SAYS = f"lui a1, 0x20; li a0, 4; {CALL}"
LEAVES = f"lui a1, 0x20; addi a1, a1, 16; li a0, 0x20; {CALL}"
# Instructions that exit with what is in a0.
LEAVES_BY = (f"lui a1, 0x20; addi a1, a1, 64; lui a2, 0x20; addi a2, a2, 38; sw a2, 0(a1); sw a0, 4(a1); li a0, 0x20; {CALL}")
TEXTS = segment(0x20000, b"hello\n".ljust(16, b"\0") + words(0x20026, 42) + bytes(232))
HERE = TOP / "tests" / "adopt"
QEMU = "qemu-system-riscv32"
# With these options and `-kernel FILE`, from `printf abcdefg` and to a pipe, qemu-system-riscv32 7.2 printed what follows.
OPTIONS = ["-M", "virt", "-bios", "none", "-display", "none", "-monitor", "none", "-serial", "none", "-semihosting-config",
           "enable=on,target=native,arg=first,arg=second"]
INPUT = b"abcdefg"
BY_CALLS = b"""\
opened 1 1 1 1
others -1 2 -1 -1 22
write out 0 0 3
read 0ad 5e 8 0 4
terminal 0 -1 9
seek -1 29 -1 9
length 0 -1 9
close 0 -1 9
features 1 5 0 0 SHF 8 66 3 10 0 0 3 0 -1 22 2 -1 13 -1 0
errors 1 0 0
clock 1 1 1
elapsed 0 0
line 0 12 first second -1 7 -1 0 12
heap 0 1
files -1 -1
"""
# Of picolibc's programs, by start file: what they printed, and the status. qemu gives no byte to a `read` by handle 0.
BY_PICOLIBC = {"hosted": (b"0 arguments:\n0 lines\n", 7),
               "semihost": (b"3 arguments: program-name first second\n0 lines\n", 7)}


def executed(rows, path, *arguments, given=INPUT, options=("-q",)):
    """What a program prints by `exec`, what its log is, and its status."""
    done = subprocess.run([TOP / "cli/libexec/exec", *options, path, *arguments], input=given, capture_output=True,
                          env={**os.environ, "REPLAYCHECK": rows.program})
    return done.stdout, done.stderr.decode(errors="replace"), done.returncode


def comes_out(rows, label, data, output, wanted, *arguments, given=INPUT):
    """A row: a file stops before it is adopted, and then prints an output and ends with a status."""
    faults = lacking(rows.run(rows.file(data), step=4000000), ["state stopped "])
    done, out = rows.cured(data)
    faults += [*status(done, 0), *lacking(done.stdout, ["ebreak becomes a jump to what answers"])]
    if out.exists():
        told = executed(rows, out, *arguments, given=given)
        faults += [] if told[::2] == (output, wanted) else [f"printed, and the status: {told}"]
        faults += unlisted(data, out.read_bytes(), listed(done.stdout))
        faults += status(rows.adopt(out), 0)
    rows.row(label, faults)


def by_qemu(rows, data):
    """What qemu prints of a file, and the status."""
    done = subprocess.run([QEMU, *OPTIONS, "-kernel", rows.file(data, "qemu.elf")], input=INPUT, stdout=subprocess.PIPE,
                          stderr=subprocess.STDOUT, timeout=60)
    return done.stdout, done.returncode


# ---- by hand


def saying(body, **more):
    return firmware(f"_start: {body}\n", segments=[TEXTS, *more.pop("segments", ())], size=more.pop("size", 0x100), **more)


def small_rows(rows):
    comes_out(rows, "a text and a status", saying(f"{SAYS}; {LEAVES}"), b"hello\n", 42)
    stripped = board([segment(AT, code(f"{SAYS}; {LEAVES}"), flags=READ_RUN), TEXTS])
    done, out = rows.cured(stripped)
    rows.row("without symbols", [*status(done, 1), *([] if executed(rows, out)[::2] == (b"hello\n", 42) else ["not printed"])])
    far = code(f"{'nop; ' * 4}{SAYS}; jalr zero, 0(ra)")
    two = saying(f"lui ra, 0x80000; jalr ra, 16(ra); {LEAVES}", segments=[segment(0x80000000, far, flags=READ_RUN)],
                 extra=[function("far", 0x80000010, len(far) - 16)])
    comes_out(rows, "calls too far apart for one place", two, b"hello\n", 42)
    kept = saying(f"{SAYS}; {LEAVES}")
    done, out = rows.cured(kept, "--keep", "_start")
    rows.row("calls that are kept", [*status(done, 0), *([] if out.read_bytes() == kept else ["the file is changed"])])
    body = "; ".join([f"mv a1, s1; li a0, 3; {CALL}"] * 1000)
    comes_out(rows, "1,000 calls", saying(f"lui s1, 0x20; {body}; {LEAVES}", size=0x8000), b"h" * 1000, 42)
    branches = saying(f"li s1, 3; {SAYS}; addi s1, s1, -1; bne s1, zero, .-24; {LEAVES}")
    comes_out(rows, "a loop", branches, b"hello\n" * 3, 42)
    registers = "; ".join([f"li x{i}, {i}" for i in range(5, 32) if i not in (10, 11)])
    sums = "; ".join([f"add a0, a0, x{i}" for i in range(5, 32) if i not in (10, 11)])
    all_kept = (f"addi ra, zero, 1; {registers}; lui a1, 0x20; li a0, 3; {CALL}; lui a0, 0xfffe0; add a0, a0, a1; {sums}; "
                f"add a0, a0, ra; {LEAVES_BY}")
    wanted = sum(range(5, 32)) - 21 + 1
    comes_out(rows, "all other registers", saying(all_kept, size=0x400), b"h", wanted % 256)
    for label, operations, given, answer in [("a byte is read", [7], b"a", 97), ("no byte is read", [7], b"", 255),
                                             ("the second byte is read", [7, 7], b"ab", 98), ("no such operation", [0x99], b"", 255),
                                             ("the error of no such operation", [0x99, 0x13], b"", 38)]:
        steps = "; ".join(f"li a0, {it}; {CALL}" for it in operations)
        comes_out(rows, label, saying(f"{steps}; {LEAVES_BY}"), b"", answer, given=given)
    room = firmware(f"_start: lui a1, 0x20; addi a1, a1, 32; li a0, 0x15; {CALL}; {SAYS}; {LEAVES}\n", segments=[segment(
        0x20000, bytes(16) + words(0x20026, 42) + bytes(8) + words(0x20000, 16) + bytes(88)), segment(0x30000, bytes(256))],
        extra=[function("__replaycheck_arguments", 0x30000, 256, OBJECT, 3)])
    comes_out(rows, "the file's own room for arguments", room, b"one two", 42, "one", "two")
    done, out = rows.cured(saying(f"{SAYS}; {LEAVES}"))
    told = executed(rows, out, "x" * 2000)
    rows.row("arguments that are too long", [*lacking(told[1], ["has 1024"]), *([] if told[2] == 126 else [str(told[2])])])


# ---- hostile files


def walled(content, gap):
    """A file whose code has segments of 2 MiB before it and after a gap."""
    at = 0x90000000
    walls = [segment(at - 0x200000, b"", 0x200000), segment(at + gap, b"", 0x200000)]
    own = segment(at, content.ljust(0x100, b"\0"), flags=READ_RUN)
    return board([own, *walls, TEXTS], [function("_start", at, len(content))], entry=at)


def hostile_files():
    """A label, a file, the exit status, whether a file is written, and texts."""
    ends = code(f"{LEAVES}")
    yield "at a segment's end", board([segment(AT, ends, flags=READ_RUN), TEXTS], [function("_start", AT, len(ends))]), 0, True, [
        "0x00010010 in _start: ebreak becomes"]
    for cut in (1, 4, 8, 11):
        part = board([segment(AT, ends[:-cut], flags=READ_RUN), TEXTS], [function("_start", AT, len(ends) - cut)])
        yield f"cut off by {cut}", part, 0, True, ["checked\n/"]
    odd = struct.pack("<I", 0x13) + bytes(2) + words(*SEQUENCE) + bytes(2)
    yield "at no multiple of 4", saying(f"{LEAVES}", segments=[segment(0x30000, odd)]), 0, True, ["0x00010010 in _start: ebreak"]
    yield "in data", saying(f"{LEAVES}", segments=[segment(0x30000, words(*SEQUENCE))]), 0, True, ["0x00030004: ebreak becomes"]
    shared = bytearray(saying(f"{LEAVES}", segments=[segment(0x30000, bytes(len(ends)))]))
    header = 52 + 32 * 2  # the third program header gets the bytes of the first
    shared[header + 4:header + 8] = shared[52 + 4:52 + 8]
    yield "bytes that are loaded twice", bytes(shared), 1, False, ["bytes that are loaded twice", "won't run"]
    yield "without room within reach", walled(ends, 0x100), 1, False, [
        "no free addresses for 28 bytes a call within 1048576", "won't run"]
    yield "with room for it and little more", walled(ends, 0x1000), 0, True, ["for 0x90000110"]
    large = saying(f"{LEAVES}", segments=[segment(0x1000000, b"", (1 << 24) - 0x400)])
    yield "almost all bytes that there are", large, 1, False, ["there would be more than 16777216 bytes"]
    dense = words(*SEQUENCE * 100000)
    yield "100,000 calls in a row", saying(f"{LEAVES}", segments=[segment(0x30000, dense)]), 1, False, ["no free addresses"]
    table = saying(f"{LEAVES}", segments=[segment(0x40000 + 0x2000 * i, words(*SEQUENCE)) for i in range(2000)])
    yield "2,000 segments with one each", table, 0, True, ["0x00040004: ebreak", "will run"]


def hostile_rows(rows):
    for label, data, wanted, is_written, texts in hostile_files():
        done, out = rows.cured(data)
        faults = [*status(done, wanted), *lacking(done.stdout + done.stderr, texts)]
        faults += [] if out.exists() == is_written else [f"there is a file: {out.exists()}"]
        faults += ["named: " + done.stdout] * ("cut" in label and "ebreak" in done.stdout)
        if is_written and out.exists():
            faults += unlisted(data, out.read_bytes(), listed(done.stdout))
            faults += ["refused: " + told for told in [rows.run(out, step=0)] if told.startswith("replaycheck: image")]
        rows.row(f"the sequence {label}", faults)


# ---- from C


def compiled(rows, *options):
    """A file for qemu's virt."""
    path = rows.room / "hosted.elf"
    done = subprocess.run([GCC, "-march=rv32im", "-mabi=ilp32", "-Og", "-g", "-o", path, *options], capture_output=True, text=True)
    if done.returncode:
        raise OSError(f"{GCC}: {done.stderr}")
    return path.read_bytes()


def handler_faults(rows, pairs):
    """Words of a handler that aren't those that the binutils make of its text."""
    source, object_, words_ = (rows.room / f"handler{it}" for it in (".s", ".o", ".bin"))
    for text, made in pairs:
        source.write_text(text + "\n")
        subprocess.run([GCC, "-march=rv32im", "-mabi=ilp32", "-Wa,-mno-relax", "-c", source, "-o", object_], check=True)
        subprocess.run(["riscv64-unknown-elf-objcopy", "-O", "binary", "-j", ".text", object_, words_], check=True)
        if words_.read_bytes() != made:
            yield "other words than the binutils'"


def compared(rows, label, data, output, wanted):
    """A row: qemu prints of a file what is recorded."""
    if shutil.which(QEMU):
        told = by_qemu(rows, data)
        rows.row(f"{label}, by qemu", [] if told == (output, wanted) else [f"printed, and the status: {told}"])


PLACE = ["-nostdlib", "-T", HERE / "host.ld", HERE / "host_start.S", "-lgcc"]
PICOLIBC = ["--specs=picolibc.specs", "--oslib=semihost", "-Wl,--defsym=__flash=0x80000000", "-Wl,--defsym=__flash_size=0x200000",
            "-Wl,--defsym=__ram=0x80200000", "-Wl,--defsym=__ram_size=0x100000", HERE / "host_program.c"]


def without_numbers(log):
    """The lines of a log, without the process, addresses and the names of start files."""
    return re.sub(r"0x[0-9A-F]+|==\d+== ?", "", log)


def compiled_rows(rows):
    if not shutil.which(GCC):
        print(f"test-adopt: calls of a host from C: left out, there is no {GCC}")
        return
    if not shutil.which(QEMU):
        print(f"test-adopt: calls of a host, by qemu: left out, there is no {QEMU}; what it printed is recorded")
    places = [(0x80001000, 0x80001030), (0xFFF, 0x12345800), (0xFFFFF800, 0)]
    rows.row("the handler's words", handler_faults(rows, [(text_of(*it), code_of(*it)) for it in places]))
    data = compiled(rows, HERE / "host_calls.c", *PLACE)
    comes_out(rows, "each operation", data, BY_CALLS, 42, "first", "second")
    compared(rows, "each operation", data, BY_CALLS, 42)
    for reason, wanted in [("0x20026", 0), ("0x20023", 1)]:
        data = compiled(rows, f"-DPLAIN_EXIT={reason}", HERE / "host_calls.c", *PLACE)
        comes_out(rows, f"exit for {reason}", data, BY_CALLS, wanted, "first", "second")
        compared(rows, f"exit for {reason}", data, BY_CALLS, wanted)
    for start, (output, wanted) in BY_PICOLIBC.items():
        data = compiled(rows, f"--crt0={start}", *PICOLIBC)
        comes_out(rows, f"picolibc, {start}", data, output, wanted, "first", "second", given=b"")
        compared(rows, f"picolibc, {start}", data, output, wanted)
        lines = output.replace(b"0 lines", b"3 lines")
        comes_out(rows, f"picolibc, {start}, with an input", data, lines, wanted, "first", "second", given=b"a\nb\nc\n")
    done, out = rows.cured(compiled(rows, "--crt0=minimal", *PICOLIBC))
    told = executed(rows, out, given=b"\n", options=("-q", "--step", "100000"))
    rows.row("picolibc, minimal, which ends in a loop", [] if told[::2] == (b"0 arguments:\n1 lines\n", 124) else [str(told)])
    trace_rows(rows)


def trace_rows(rows):
    """A bug in a program of picolibc's, and one in an inlined call, have traces of their own source lines."""
    done, out = rows.cured(compiled(rows, "-DBUG", "--crt0=hosted", *PICOLIBC))
    log = without_numbers(executed(rows, out, given=b"")[1])
    rows.row("a write after a block", lacking(log, ["Invalid write of size 1\n   at : memset (", "by : main (host_program.c:19)\n",
                                                     "alloc'd\n   at : malloc (", "by : main (host_program.c:17)\n"]))
    done, out = rows.cured(compiled(rows, HERE / "host_bugs.c", *PLACE))
    report = rows.run(out)
    stub = re.search(r"by (0x[0-9a-f]{8}): fold\$semihosting\n   by 0x[0-9a-f]{8}: main\n", report)
    rows.row("a report has the stub's name", [] if stub else [report])
    frames = ["host (host_call.h:6)", "fold (host_bugs.c:7)", "main (host_bugs.c:15)"]
    log = without_numbers(executed(rows, out)[1])
    wanted = ["uninitialised byte(s)\n   at : __semihosting (in ", "\n   by : " + "\n   by : ".join(frames)]
    rows.row("exec has the line of the call", lacking(log, wanted))
    lines = subprocess.run([TOP / "cli/bin/replaycheck-lines", out], input=report, capture_output=True, text=True).stdout
    lines = re.sub("0x[0-9a-f]{8}: ", "", lines)
    rows.row("lines has it", lacking(lines, ["\n   by " + "\n   by ".join(frames)]))
    formed = subprocess.run([TOP / "cli/libexec/run", "--format", "gcc", out], capture_output=True, text=True,
                            env={**os.environ, "REPLAYCHECK": rows.program}).stdout
    rows.row("a format has it", lacking(formed, ["host_call.h:6: "]))


def host_rows(rows):
    for part in (small_rows, hostile_rows, compiled_rows):
        part(rows)
