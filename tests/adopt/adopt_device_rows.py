"""Rows of `test-adopt` for what reaches a device: by which instructions, and how far the file will run."""
import shutil
import subprocess
import threading
import time

from adopt_host_rows import HERE, LEAVES_BY, QEMU, TEXTS, executed, handler_faults, without_numbers
from adopt_rows import AT, EXIT, GCC, firmware, lacking, listed, status, unlisted
from board_files import OBJECT, READ_RUN, board, function, segment
from checkout import TOP
from replaycheck.adopting.device_handler import NO_SUCH, code_of, text_of

NO_MEMORY = "device registers (unmapped)"
POLLS = "main: lui a5, 0x10013; lw a4, 4(a5); beq a4, zero, .-4; sw a0, 0(a5); jalr zero, 0(ra)\n"
START = f"_start: jal ra, main; li a0, 0; {EXIT}\n"
# A label, the file's code, and what its line says of the place; nothing where there is no line.
ACCESSES = [
    ("a UART that is polled", START + POLLS, ["0x10013000 to 0x10013004, SiFive's UART: from 0x00010104 in main, 0x0001010c in main"]),
    ("a device without a name", START + "main: lui a5, 0x50001; lb a4, -4(a5); lui a5, 0x90000; sh a4, 2(a5); jalr zero, 0(ra)\n",
     ["0x90000002: from 0x0001010c in main"]),
    ("an address by addi", START + "main: lui a5, 0x10012; addi a5, a5, 2040; mv a4, a5; lw a5, 2040(a4); jalr zero, 0(ra)\n",
     ["0x10012ff0: from 0x0001010c in main"]),
    ("the same after a call", START + "main: lui s1, 0x10013; lui a5, 0x10013; jal ra, leaf; lw a4, 0(s1); lw a4, 8(a5); "
     "jalr zero, 0(ra)\nleaf: jalr zero, 0(ra)\n", ["0x10013000, SiFive's UART: from 0x0001010c in main\n"]),
    ("five instructions", START + "main: lui a5, 0x10013; 5 * lw a4, 0(a5); jalr zero, 0(ra)\n",
     ["0x00010110 in main and 1 more"]),
    ("an address that is written over", START + "main: lui a5, 0x10013; lw a5, 0(sp); lw a4, 0(a5); jalr zero, 0(ra)\n", []),
    ("an address of the other branch", START + "main: beq a0, zero, .+12; lui a5, 0x10013; j .+8; lw a4, 0(a5); jalr zero, 0(ra)\n",
     []),
    ("a null pointer", START + "main: sw zero, 8(zero); jalr zero, 0(ra)\n", []),
    ("heap and stack", START + "main: lui a5, 0x40000; lw a4, 0(a5); lui a5, 0x7f000; lw a4, 0(a5); jalr zero, 0(ra)\n", []),
    ("the end of a segment", START + "main: lui a5, 0x10; lw a4, 276(a5); lw a4, 1000(a5); jalr zero, 0(ra)\n", []),
    ("an address of the linker's", START + "main: auipc a5, 0x10003; lw a4, 0(a5); jalr zero, 0(ra)\n", []),
]

NONE = "/dev/null"
VIRT, SIFIVE, SPIKE = ["-M", "virt", "-bios", "none"], ["-M", "sifive_e"], ["-M", "spike", "-bios", "none"]
FIRMWARE = TOP / "examples" / "firmware"
# A label, what is sent to the program, and what qemu-system-riscv32 7.2 printed of it by `-M virt -bios none -display none
# -monitor none -serial stdio -kernel FILE`, with `sleep 1` after the input, and its status.
BY_VIRT = [("five letters", b"hello\n", b"ready\ngot hello\n", 0), ("three letters", b"abc\n", b"ready\ngot abc\n", 3),
           ("too many letters", b"abcdefghij\n", b"ready\ngot abcdefg\n", 7)]
# The same by `-M sifive_e`; it runs for ever.
BY_SIFIVE = (b"hello\n", b"ready\nright\n")
# The same of the second program for each, by `-M virt -bios none`, `-M sifive_e` and, of the build that uses the console, by `-M spike
# -bios none`: qemu-system-riscv32 7.2 does no calls by tohost. That the other build prints the same, and device_htif.c what its row
# says, is by reasoning.
BY_LINES = [("a status", b"hello\nkeep harbour\n\nA1 b2\nexit 5\n", b"HELLO\nHARBOUR\nA1 B2\n", 5),
            ("no status", b"exit\nexit 0\n", b"EXIT\n", 0)]
BY_RING = (b"12 30\n7\n4000000000 5 6 70\n.", b"the sum is 42\nthe sum is 7\nthe sum is 4000000081\n")
BY_BENCH = (b"9", b"632 1052 2399 2407 2511 3061 3142 3486 3988\n12 moves\n", 12)
TWELVE = (b"keep twelve chars and more\n\nexit 3\n", b"TWELVE CHARS\n", 3)     # a bug of the heap, which qemu doesn't show
IDLE = ("-q", "--idle-exitcode", "7")


def answered(rows, label, data, given, output, wanted, *inputs, options=("-q",), told=(), untold=()):
    """A row: a file whose devices are answered for prints an output and ends with a status."""
    words = [word for it in inputs for word in ("--devices", it)]
    done, out = rows.cured(data, *words)
    faults = [*status(done, 0), *lacking(done.stdout, ["becomes a jump to what answers", *told]),
              *(f"'{it}' in: {done.stdout}" for it in untold if it in done.stdout)]
    if out.exists():
        came = executed(rows, out, given=given, options=options)
        faults += [] if came[::2] == (output, wanted) else [f"printed, and the status: {came}"]
        faults += unlisted(data, out.read_bytes(), listed(done.stdout))
        faults += status(rows.adopt(out), 0)
    rows.row(label, faults)


def ending(body, **more):
    """A file that exits with what is in a0, by semihosting."""
    return firmware(f"_start: {body}; {LEAVES_BY}\n", segments=[TEXTS], **more)


def access_rows(rows):
    """Each kind of load and store, with each register for its address and its value."""
    for name in ("lb", "lbu"):
        for to, base in [("a0", "a0"), ("a1", "a0"), ("a2", "a1"), ("ra", "a2"), ("t0", "ra"), ("s1", "t2"), ("a0", "t2")]:
            body = f"lui {base}, 0x10000; addi {base}, {base}, 7; {name} {to}, -2({base}); mv a0, {to}"
            answered(rows, f"{name} {to}, -2({base})", ending(body), b"", b"", 0x60, NONE)
    for name, value in [("lb", 0xFF), ("lbu", 0xFF), ("lh", 0xFF), ("lhu", 0xFF), ("lw", 0xFF)]:
        body = f"lui a5, 0x10000; li a4, -1; sb a4, 3(a5); {name} a0, 3(a5)"
        answered(rows, f"{name} of LCR", ending(body), b"", b"", value, NONE)
        body += "; srai a0, a0, 8"
        answered(rows, f"{name} of LCR, the upper bits", ending(body), b"", b"", 255 if name == "lb" else 0, NONE)
    for value, base in [("a0", "a1"), ("a1", "a0"), ("a2", "a0"), ("ra", "a5"), ("t0", "a2"), ("a4", "ra"), ("zero", "a0")]:
        body = f"lui {base}, 0x10000; li {value}, 65; sb {value}, 0({base}); li a0, 9"
        answered(rows, f"sb {value}, 0({base})", ending(body), b"", b"\0" if value == "zero" else b"A", 9, NONE)


def register_rows(rows):
    """What an access leaves as it was, and where the same one reaches something else."""
    numbers = {name: at + 3 for at, name in enumerate(["ra", "a1", "a2", "a3", "a7", "t0", "t1", "t2", "t6", "s0"])}
    body = "; ".join(f"li {name}, {number}" for name, number in numbers.items())
    body += "; lui a5, 0x10000; lbu a4, 5(a5); sb a4, 1(a5); li a0, 0; " + "; ".join(f"add a0, a0, {it}" for it in numbers)
    answered(rows, "all other registers of a load and a store", ending(body), b"", b"", sum(numbers.values()), NONE)
    elsewhere = ("lui a5, 0x10000; lui a3, 0x20; addi a3, a3, 128; li t2, 2; again: sw t2, 0(a3); lw a0, 0(a3); mv a3, a5; "
                 "addi t2, t2, -1; bne t2, zero, again")
    answered(rows, "an instruction that reaches memory, and later a device", ending(elsewhere), b"", b"\1", 0, NONE,
             told=["0x00010010 in _start"])
    half = firmware("_start: lui a5, 0x20; li a0, 85; sw a0, 0(a5); j .+0\n", segments=[segment(0x20000, bytes(64))],
                    extra=[function("tohost", 0x20000, 8, OBJECT)])
    answered(rows, "only the lower half of tohost", half, b"", b"", 42, NONE)


def told_rows(rows):
    """What is said of what isn't answered for, and what is rejected."""
    other = firmware(START + POLLS + "far: lui a5, 0x90000; lw a4, 0(a5); jalr zero, 0(ra)\n")
    done, out = rows.cured(other, "--devices", NONE)
    rows.row("a device that isn't known", [*status(done, 1), *lacking(done.stdout, [
        "0x90000000: from 0x00010204 in far", "found by addresses in the code and by 1 run; what neither shows isn't answered",
        f"{out} will run as far as it waits for no device"])])
    done, out = rows.cured(firmware(START + POLLS), "--devices", NONE, "--keep", "main")
    rows.row("a function that is kept", [*status(done, 1), *lacking(done.stdout, ["0x10013000 to 0x10013004, SiFive's UART"])])
    for label, words, text in [("no such input", ["--devices", "missing"], "missing"),
                               ("too long an input", ["--devices", "/dev/zero"], "14")]:
        done = rows.adopt(rows.file(firmware(START + POLLS)), *words)
        rows.row(label, [*status(done, 2), *lacking(done.stderr, [text])])
    walls = [segment(0x90000000 - 0x200000, b"", 0x200000), segment(0x90000200, b"", 0x200000)]
    content = firmware(START + POLLS)[84:84 + 0x114]
    walled = board([segment(0x90000000, content, flags=READ_RUN), *walls], [function("_start", 0x90000000, 0x114)], entry=0x90000000)
    done, out = rows.cured(walled, "--devices", NONE)
    rows.row("no room within reach", [*status(done, 2), *lacking(done.stderr, ["no free addresses for 112 bytes a call"]),
                                      *(["there is a file"] if out.exists() else [])])


    unset = ending("addi sp, sp, -16; lui a5, 0x10000; lw a4, 0(sp); sb a4, 0(a5); li a0, 0")
    _, out = rows.cured(unset, "--devices", NONE)
    log = executed(rows, out)[1]
    rows.row("an undefined byte that is sent", [*lacking(log, ["uninitialised byte(s)", ": __devices (in ", ": _start (in "]),
                                                *(["the stub's name: " + log] if "$device" in log else [])])


def built_for(rows, source, script, *more):
    path = rows.room / "device.elf"
    subprocess.run([GCC, "-march=rv32im", "-mabi=ilp32", "--specs=picolibc.specs", "-Og", "-g", "-nostartfiles", "-nostdlib",
                    "-ffreestanding", "-T", HERE / script, HERE / "host_start.S", HERE / source, *more, "-o", path],
                   check=True, capture_output=True)
    return path.read_bytes()


def by_qemu(rows, label, data, machine, given, output, wanted):
    """A row: what qemu prints of a file, and its status, are those that are recorded. A status of None is one of what runs for ever."""
    words = [QEMU, *machine, "-display", "none", "-monitor", "none", "-serial", "stdio", "-kernel", rows.file(data, "qemu.elf")]
    child = subprocess.Popen(words, stdin=subprocess.PIPE, stdout=subprocess.PIPE, stderr=subprocess.DEVNULL)
    ending = threading.Timer(30, child.kill)
    ending.start()
    child.stdin.write(given)
    child.stdin.flush()
    printed = child.stdout.read(len(output))
    if wanted is None:
        time.sleep(0.2)
        child.kill()
    child.wait()
    ending.cancel()
    came = printed + child.communicate()[0], child.returncode if child.returncode >= 0 else None
    rows.row(f"{label}, by qemu", [] if came == (output, wanted) else [str(came)])


def compiled_rows(rows):
    if not shutil.which(GCC):
        print(f"test-adopt: devices, from C: left out, there is no {GCC}")
        return
    places = [(0x80001000, 0x80002000, 0x80002040), (0xFFFFF800, NO_SUCH, NO_SUCH)]
    rows.row("the handler's words for devices", handler_faults(rows, [(text_of(*it), code_of(*it)) for it in places]))
    virt, sifive = built_for(rows, "device_virt.c", "host.ld"), built_for(rows, "device_sifive.c", "sifive.ld")
    htif = built_for(rows, "device_htif.c", "host.ld")
    for label, given, output, wanted in BY_VIRT:
        sent = rows.file(given, "sent")
        answered(rows, f"QEMU's virt: {label}", virt, given, output, wanted, sent, NONE, told=[" in put: "])
    answered(rows, "SiFive's UART", sifive, *BY_SIFIVE, 7, NONE, options=IDLE)
    answered(rows, "tohost and fromhost", htif, b"", b"by tohost\n", 10, NONE, told=["in ask: ", "in main: "])
    if not shutil.which(QEMU):
        print(f"test-adopt: devices, by qemu: left out, there is no {QEMU}; what it printed is recorded")
        return
    for label, given, output, wanted in BY_VIRT:
        by_qemu(rows, f"QEMU's virt: {label}", virt, VIRT, given, output, wanted)
    by_qemu(rows, "SiFive's UART", sifive, SIFIVE, *BY_SIFIVE, None)


def printed(rows, label, given, output, wanted, options=("-q",), told=()):
    """A row: what was adopted last prints an output from an input, ends with a status, and logs texts."""
    came = executed(rows, rows.room / "check.elf", given=given, options=options)
    log = without_numbers(came[1])
    rows.row(label, [*([] if came[::2] == (output, wanted) else [f"printed, and the status: {came}"]), *lacking(log, told),
                     *(["there is a log: " + log] if log and not told else [])])


def second_rows(rows):
    """A second program for each device. Where the devices are is in memory, so that only runs show what reaches them."""
    if not shutil.which(GCC):
        return
    kit, memory = [FIRMWARE / it for it in ("heap_by_name.c", "memory.c")], FIRMWARE / "memory.c"
    lines, ring = built_for(rows, "device_virt_lines.c", "host.ld", *kit), built_for(rows, "device_sifive_ring.c", "sifive.ld")
    done = rows.adopt(rows.file(lines))
    rows.row("addresses from a table", [*lacking(done.stdout, ["will run once it is cured\n"]),
                                        *(["named: " + done.stdout] if NO_MEMORY in done.stdout else [])])
    (label, *first), (label_of_other, *other) = BY_LINES
    names = ["await", "put", "get", "power_off"]
    answered(rows, f"lines: {label}", lines, *first, rows.file(first[0], "sent"), told=[f" in {it}: " for it in names])
    printed(rows, f"lines: {label_of_other}", *other)
    printed(rows, "lines: a write after a block", *TWELVE[:2], 9, ("-q", "--error-exitcode=9"), told=[
        "Invalid write of size 1\n   at : keep (device_virt_lines.c:49)\n   by : main (device_virt_lines.c:78)\n",
        " is 0 bytes after a block of size 12 alloc'd\n   at : malloc (heap_by_name.c:74)\n   by : keep (device_virt_lines.c:47)\n"])
    sent = rows.file(BY_RING[0], "sent")
    names = ["flush", "get", "turn_on"]
    answered(rows, "a ring", ring, *BY_RING, 7, sent, options=IDLE, untold=["turn_off"], told=[
        *(f" in {it}: " for it in names), "by 3 runs; what neither shows isn't answered"])
    printed(rows, "what no run has reached", BY_RING[0].replace(b".", b"!"), BY_RING[1], 7, IDLE, told=[
        "Invalid write of size 4\n   at : turn_off (device_sifive_ring.c:54)\n   by : main (device_sifive_ring.c:80)\n"])
    for form in ("CALLS", "CONSOLE"):
        bench = built_for(rows, "device_htif_bench.c", "host.ld", memory, f"-D{form}")
        answered(rows, f"a benchmark by tohost, {form}", bench, *BY_BENCH, rows.file(BY_BENCH[0], "sent"), told=["in ask: ", "in leave: "])
    if shutil.which(QEMU):
        for label, *values in [*BY_LINES, ("a write after a block", *TWELVE)]:
            by_qemu(rows, f"lines: {label}", lines, VIRT, *values)
        by_qemu(rows, "a ring", ring, SIFIVE, *BY_RING, None)
        by_qemu(rows, "a benchmark by tohost", bench, SPIKE, *BY_BENCH)


def device_rows(rows, has_all):
    """With all of them, also each access by itself, and a second program for each device."""
    for part in (named_rows, register_rows, told_rows, compiled_rows, *([access_rows, second_rows] if has_all else [])):
        part(rows)


def named_rows(rows):
    for label, text, texts in ACCESSES:
        done = rows.adopt(rows.file(firmware(text)))
        wanted = [NO_MEMORY, "board.elf will run as far as it waits for no device"] if texts else ["will run as it is"]
        rows.row(label, [*status(done, int(bool(texts))), *lacking(done.stdout, [*texts, *wanted]),
                         *([f"named: {done.stdout}"] if not texts and NO_MEMORY in done.stdout else [])])
    curable = firmware(START.replace(": ", ": lui sp, 0x80001; ", 1) + POLLS)
    done = rows.adopt(rows.file(curable))
    rows.row("a device and a stack", [*status(done, 1), *lacking(done.stdout, ["will run once it is cured, as far as it waits for no"])])
    done, out = rows.cured(curable)
    rows.row("a device and a stack, with -o", [*status(done, 1), *lacking(done.stdout, [f"{out} will run as far as it waits"])])
    loaded = firmware(START + POLLS, segments=[segment(0x10013000, bytes(16))])
    done = rows.adopt(rows.file(loaded))
    rows.row("memory where a UART may be", [*status(done, 0), *lacking(done.stdout, ["will run as it is"])])
    rebuilt = firmware(START + POLLS.replace("sw a0", ".word 0x00052007; sw a0"))
    done = rows.adopt(rows.file(rebuilt))
    rows.row("a device and floating point",
             [*status(done, 1), *lacking(done.stdout, ["as far as it meets nothing that needs a rebuild and waits for no device"])])
    atomic = firmware(START + POLLS.replace("sw a0", ".word 0x00a5252f; sw a0"))
    done = rows.adopt(rows.file(atomic))
    rows.row("a device and an atomic instruction",
             [*status(done, 1), *lacking(done.stdout, ["will run with --isa rv32imac as far as it waits for no device"])])
    host = firmware(f"_start: {EXIT}\n", extra=[function("tohost", 0x20000, 8, OBJECT)], segments=[segment(0x20000, bytes(64))])
    done = rows.adopt(rows.file(host))
    rows.row("tohost", [*status(done, 1), *lacking(done.stdout, ["tohost at 0x00020000: a word by which a host is asked (HTIF)"])])
    code = b"".join(word.to_bytes(4, "little") for word in [0x100137B7, 0x0007A703, *[0x00000013] * 3, 0x00008067] * 20000)
    many = board([segment(AT, code, flags=READ_RUN), *(segment(0x30000000 + 0x10000 * i, bytes(4)) for i in range(2000))],
                 [function("_start", AT, len(code))])
    done = rows.adopt(rows.file(many))
    rows.row("20,000 accesses beside 2,000 segments", lacking(done.stdout, ["0x10013000, SiFive's UART", "and 19996 more"]))
