"""The cases that tests/program/try-hostile tries, a generator for each class."""
import struct

from checkout import TOP
from guest_files import ENTRY, elf
from replaycheck.guest.rv32 import CONTROLS, EBREAK, ECALL, FIRST_CONSTANT, addi, control, jump, load_number
from replaycheck.guest.regions import USUAL_REGIONS, Regions
from replaycheck.programs import SHORT, USUAL, isa_words

LONGEST, MILLION = 4194304, 1048576
NUMBERS = [0, 1, 0x7FFFFFFF, 0x80000000, 0xFFFFFFFF]
EDGES = [0, ENTRY, ENTRY + 4096, 0x40000000, 0x50000000, 0x60000000, 0x7F000000, 0x7FFFFFF0, 0x80000000]
# Other regions of heap and stack, with how much memory a guest has, and their edges: the stack inside of its segment, and both as far up as
# they can be.
ELSEWHERE = [
    (Regions(0x90000000, (0x20000, 0x40000)), 0x40000, [0x20000, 0x40000, 0x90000000, 0xB0000000]),
    (Regions(0xD0000000, (0xFFFE0000, 0xFFFFF000)), 0, [0xD0000000, 0xF0000000, 0xFFFE0000, 0xFFFFF000])]
EXITS = [0x05D00893, 0x00000513, ECALL]  # addi a7, x0, 93; addi a0, x0, 0; ecall
LOOPS = [0x0000006F]  # jal x0, 0
# addi t0, x0, 30; addi t0, t0, -1; beq t0, x0, 8; jal ra, -8; lw a0, 0(x0); ebreak
DEEP = [0x01E00293, 0xFFF28293, 0x00028463, 0xFF9FF0EF, 0x00002503, EBREAK]


def case(name, program, lines=None, supp=b"", given=b"", step=4096, isa=USUAL, regions=USUAL_REGIONS):
    """A case: what is typed, in a session, or the step of a report where nothing is, and options."""
    return name, program, lines, supp, given, step, [*isa_words(isa), *regions.words]


# ---- files


def put(file, offset, size, number):
    return file[:offset] + (number % 256**size).to_bytes(size, "little") + file[offset + size:]


def fields(file):
    """Offset and size of each field of the headers, of the first function's symbol and of the one before it."""
    header = [(at, 1) for at in range(16)] + [(16, 2), (18, 2)] + [(at, 4) for at in range(20, 40, 4)]
    header += [(at, 2) for at in range(40, 52, 2)]
    sections, count = struct.unpack_from("<I", file, 32)[0], struct.unpack_from("<H", file, 48)[0]
    words = list(range(52, 84, 4)) + list(range(sections, sections + 40 * count, 4))
    table = next(at for at in range(sections, len(file), 40) if struct.unpack_from("<I", file, at + 4)[0] == 2)
    symbols = struct.unpack_from("<I", file, table + 16)[0]
    function = next(at for at in range(symbols, len(file), 16) if file[at + 12] & 15 == 2)
    return header + [(at, 4) for at in words + list(range(function - 16, function + 16, 4))]


def many_segments(count, kind, size, apart):
    """A file whose program headers all load a few bytes of it, so far apart."""
    header = elf([0])[:28] + struct.pack("<IIIHHHHHH", 52, 0, 0, 52, 32, count, 0, 0, 0)
    return header + b"".join(struct.pack("<8I", kind, 0, ENTRY + apart * i, 0, size, size, 7, 1) for i in range(count))


def files():
    good = (TOP / "examples" / "use-after-free.elf").read_bytes()
    for size in range(len(good)):
        yield case(f"cut at byte {size}", good[:size])
    for at, size in fields(good):
        old = int.from_bytes(good[at:at + size], "little")
        for number in NUMBERS + [old - 1, old + 1]:
            yield case(f"the field at {at} is {number}", put(good, at, size, number))
    for kind, size, apart in [(1, 1, 1), (1, 1, 4096), (1, 0, 0), (1, 4, 0), (1, 4, 0x7FFC), (4, 1, 1)]:
        name = f"65,534 segments of kind {kind}, {size} bytes, {apart} apart"
        yield case(name, many_segments(65534, kind, size, apart))
    for name in ["f", "f" * 500000]:
        symbols = [(name, ENTRY + 4 * (i % 6), 4) for i in range(1000000)]
        yield case(f"a million symbols with one name of {len(name)} bytes", elf(DEEP, 0, symbols))


# ---- suppression texts


def block(frames):
    return b"{\n  a name\n  Memcheck:Addr4\n" + frames + b"}\n"


def texts():
    million = 1 << 20
    named = elf(DEEP, 0, [("a" * 4000, ENTRY, 24)])
    room = million - len(block(b"")) - 10
    for text in [b"*", b"{", b"}", b"\n", b"#", b"...\n", b"a", b"\0", b"\xff", b"{\n}\n", b"fun:*\n"]:
        yield case(f"a megabyte of {text}", named, supp=(text * million)[:million])
    for text in [b"...\n", b"...\nfun:*\n", b"fun:*\n", b"...\nfun:*a*b\n"]:
        yield case(f"a block of a megabyte of {text}", named, supp=block(text * (room // len(text))))
    for text in [b"*", b"?", b"*a", b"*a*?"]:
        yield case(f"a frame of a megabyte of {text}", named, supp=block(b"fun:" + text * (room // len(text)) + b"b\n"))
        yield case(f"frames of {text} again and again", named, supp=block((b"fun:" + text * 1900 + b"b\n") * 100))
    yield case("as many blocks as the text holds", named, supp=block(b"fun:b\n") * (million // len(block(b"fun:b\n"))))


# ---- scripts


def scripts():
    good = elf(EXITS)
    numbers = ["0", "1", str(2**32 - 1), "0xffffffff", str(2**32), "-1", "", "9" * 4000]
    forms = ["goto N", "input N N", "input append N", "input cut N", "patch N N", "patch16 N N", "mark N N N defined", "unmark N"]
    forms += ["supp on N", "supp off N"]
    forms += ["supp add N", "supp add Cond N", "option callers N", "option redzone N", "option queue N"]
    forms += ["option show N"]
    for form in forms:
        for number in numbers:
            yield case(f"{form} with {number[:20]}", good, [form.replace("N", number), "report"], given=b"abc")
    for size in (4096, 4097, 1 << 20):
        for line in ["x" * size, "supp add Cond " + "f:a " * size, "option show " + "all," * size, "\0" * size]:
            yield case(f"a line of {size} bytes, {line[:12]!r}", good, [line[:size], "report"])
    for line in ["", "worked", "goto 1", "mark 0 65536 1 defined", "supp add Cond fun:*", "patch 65536 0"]:
        yield case(f"100,001 lines {line!r}", good, [line] * 100001)
    marks = [f"mark {i % 50} {ENTRY + i} 1048576 {'undefined' if i % 2 else 'noaccess'}" for i in range(4097)]
    yield case("4,097 marks, each as long as can be", good, marks + ["goto 60", "report"])


# ---- guests


def guests():
    yield from accesses(EDGES)
    yield from calls(NUMBERS + EDGES)
    for regions, memory, edges in ELSEWHERE:
        for name, program, *rest in [*accesses(edges, memory), *calls(edges, memory)]:
            yield f"{name}, {regions.told}", program, *rest[:-1], regions.words


def accesses(edges, memory=0):
    """Jumps, loads and stores at each edge."""
    for edge in edges:
        for target in [edge - 4, edge - 2, edge - 1, edge, edge + 1, edge + 2, edge + 4]:
            number = target % 2**32
            yield case(f"a jump to {number:#x}", elf(load_number(5, number) + [0x00028067], memory))
            for width in (0, 1, 2, 4, 5):  # lb, lh, lw, lbu, lhu and sb, sh, sw
                words = load_number(5, number) + [0x0002A503 & ~0x7000 | width << 12, EBREAK]
                yield case(f"a load of width {width} at {number:#x}", elf(words, memory))
                words[2] = 0x00628023 | (width & 3) % 3 << 12
                yield case(f"a store of width {width} at {number:#x}", elf(words, memory))


def calls(numbers, memory=0):
    """Each call with each argument."""
    for call in [57, 62, 63, 64, 80, 93, 94, 214, 2001, 2002, 2003, 2004, 2005]:
        for number in numbers:
            for which in (10, 11, 12):
                words = [word for r in (10, 11, 12) for word in load_number(r, number if r == which else 1)]
                words = load_number(17, call) + words + [ECALL, EBREAK]
                yield case(f"call {call}, x{which} is {number:#x}", elf(words, memory))


def full():
    """Guests that make all steps, and what is as great as can be."""
    one = block(b"...\nfun:*a*a*b\n")
    named = elf(DEEP, 0, [("a" * 4000, ENTRY, 24)])
    yield case("a megabyte of blocks, 24 frames named by 4,000 bytes", named, supp=one * ((1 << 20) // len(one)))
    yield case("100,001 reports", elf(EXITS), ["report"] * 100001)
    malloc, size = load_number(17, 2001), load_number(10, 1 << 24)
    calloc = load_number(17, 2003) + [addi(10, 0, 1)] + load_number(11, 1 << 24) + [ECALL]
    yield case("31 blocks of 16 MiB", elf(malloc + (size + [ECALL]) * 31 + LOOPS), step=LONGEST)
    yield case("31 blocks of 16 MiB, zeroed", elf(calloc * 31 + LOOPS), step=LONGEST)
    for count in (0, 1):
        words = malloc + [addi(10, 0, count), ECALL, 0xFF9FF06F]
        yield case(f"as many blocks of {count} bytes as can be", elf(words), step=LONGEST)
    yield case("recursion without end", elf([0x000000EF]), step=LONGEST)
    yield case("code that writes over itself", elf([0x00000297, 0x0002A303, 0x0062A023, 0xFF5FF06F]), step=LONGEST)
    yield case("a million places of errors", elf([0x00002503] * MILLION), step=LONGEST)
    yield case("a million places of errors, 24 addresses each", elf(DEEP[:4] + [0x00002503] * MILLION), step=LONGEST)
    yield case("20,000 errors in functions of long names", elf(DEEP[:4] + [0x00002503] * 20000, 0,
               [("a" * 4000, ENTRY, 90000)]), step=LONGEST)
    frees = load_number(17, 2002) + [addi(10, 0, 16), ECALL, 0xFF9FF06F]
    yield case("as many invalid frees as can be", elf(frees), step=LONGEST)
    words = load_number(6, 65536) + [0x0002A023, 0x006282B3, 0xFF9FF06F]
    yield case("a write to each 16th page", elf(words), step=LONGEST)
    written = [control(CONTROLS["csrrw"], 5, number, 6) for number in range(FIRST_CONSTANT)]
    words = elf([*written, addi(6, 6, 1), jump(0, -4 * len(written) - 4)])
    yield case("each control register, again and again", words, step=LONGEST, isa=SHORT)
    lines = [f"goto {LONGEST}", "report", "patch 0x10004 0x13", "report", "patch 0x10004 1", "report"]
    yield case("the same, and edits of it", words, lines, isa=SHORT)
    yield case("each edit of a full run", elf(LOOPS, 4096), [f"goto {LONGEST}", "report", "patch 0x10004 1", "report",
               f"mark {LONGEST} 0 1 defined", "report", "option redzone 0", "report", "unmark 0", "report"])


CLASSES = {"files": files, "texts": texts, "scripts": scripts, "guests": guests, "full": full}
