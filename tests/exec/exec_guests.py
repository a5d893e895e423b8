"""Small programs for `test-exec`, each of which ends in its own way."""
import pathlib

from guest_files import ENTRY, elf
from replaycheck.guest.assembly import assemble
from tool_rows import placed_file

# Code comes first, and from here on there is data.
DATA = ENTRY + 0x400
# Where functions are that are never called.
APART = ENTRY + 0x200
SAY = f"li a7, 64; li a0, 1; li a1, {DATA}; li a2, 3; ecall;"
END = "li a0, 0; li a7, 93; ecall"
ROOM = ("__replaycheck_arguments", DATA + 16, 64)
SOURCES = {
    "says": f"{SAY} {END}",
    "fails": f"{SAY} li a0, 3; li a7, 93; ecall",
    "reads": f"li a7, 63; li a0, 0; li a1, {DATA}; li a2, 16; ecall; mv a2, a0; li a7, 64; li a0, 1; ecall; {END}",
    "says-and-reads": f"{SAY} li a7, 63; li a0, 0; li a1, {DATA}; li a2, 16; ecall; mv a2, a0; li a7, 64; li a0, 1; ecall; {END}",
    "writes-badly": f"{SAY} sw zero, 0(zero); {END}",
    "mangled": f"{SAY} sw zero, 0(zero); {END}",
    "leaks": f"{SAY} li a7, 2001; li a0, 8; ecall; {END}",
    "illegal": f"{SAY} .word 0",
    "break": f"{SAY} ebreak",
    "misaligned": f"{SAY} li t0, {ENTRY + 2}; jalr ra, 0(t0)",
    "null": f"{SAY} jalr ra, 0(zero)",
    # Jumps to a multiple of 2, where an EBREAK begins.
    "half": f"{SAY} .word 0x0060006f; .word 0x00730000; .word 0x00000010",
    # One more by LR and SC, three by an AMO; and one at no multiple of 4.
    "atomic": f"{SAY} addi sp, sp, -16; sw x0, 0(sp); lr.w a0, (sp); addi a0, a0, 1; sc.w a1, a0, (sp); li t0, 3; amoadd.w a2, t0, (sp); "
              "lw a0, 0(sp); li a7, 93; ecall",
    "odd": f"{SAY} addi t0, sp, 2; amoadd.w a0, a0, (t0)",
    # It keeps 5 in a control register, sets a bit of it, and takes both from there; and one that waits for what never comes.
    "controls": f"{SAY} csrrwi x0, mscratch, 5; fence.i; wfi; csrrsi x0, mscratch, 2; csrr a0, mscratch; li a7, 93; ecall",
    "waits": f"{SAY} again: wfi; j again",
    "rests": f"{SAY} csrr a0, mcycle; again: j again",
    "hangs": f"{SAY} again: nop; j again",
    "idles": f"{SAY} again: j again",
    # What an emulator ends with a signal, and passes here.
    "writes-code": f"{SAY} li t0, {ENTRY}; sw zero, 0(t0); {END}",
    # A return, 0x8067, that it writes on the stack.
    "executes-stack": f"{SAY} li t1, 0x8067; addi sp, sp, -16; sw t1, 0(sp); jalr ra, 0(sp); {END}",
    "says-on-2": f"{SAY} li a0, 2; li a7, 64; ecall; {END}",
    # A line on 2 that isn't ended, and an error after it.
    "says-half-on-2": f"{SAY} li a0, 2; li a2, 2; li a7, 64; ecall; sw zero, 0(zero); {END}",
    "hangs-after-half": f"{SAY} li a0, 2; li a2, 2; li a7, 64; ecall; again: nop; j again",
    "says-in-turn": "".join(f"li a7, 64; li a0, {it}; li a1, {DATA}; li a2, {long}; ecall;"
                            for it, long in ((1, 3), (2, 2), (1, 1), (2, 3))) + END,
    # 4,097 bytes by one call; all that may be accessed, by a count of 2^32 - 1; and as much of the input.
    "writes-much": f"li s0, 3; li a7, 64; li a0, 1; li a1, {DATA}; li a2, 2047; add a2, a2, a2; add a2, a2, s0; ecall; {END}",
    "writes-all": f"li a7, 64; li a0, 1; li a1, {DATA}; li a2, -1; ecall; {END}",
    "reads-all": f"li a7, 63; li a0, 0; li a1, {DATA}; li a2, -1; ecall; mv a2, a0; li a7, 64; li a0, 1; ecall; {END}",
    # A buffer of which only four bytes may be accessed.
    "writes-past": f"li a7, 64; li a0, 1; li a1, {ENTRY + 0x1FFC}; li a2, -1; ecall; {END}",
    "calls-unknown": f"{SAY} li a7, 66; ecall; {END}",
    "calls-unknowns": f"{SAY} li a7, 66; ecall; li a7, 222; ecall; li a7, 66; ecall; {END}",
    # The stack pointer is put below the stack's region: by 16 MiB, by 64 and by 64 MiB and a page; by 16 MiB with undefined bits; and by
    # 1 MiB below a region from 0x70000000 on.
    "falls": "lui sp, 0x7e000; again: addi a0, a0, 1; j again",
    "falls-just": "lui sp, 0x7b000; again: addi a0, a0, 1; j again",
    "falls-far": "lui sp, 0x7afff; again: addi a0, a0, 1; j again",
    "falls-undefined": "addi sp, sp, -64; lw t0, 0(sp); lui sp, 0x7e000; or sp, sp, t0; again: addi a0, a0, 1; j again",
    "falls-elsewhere": "lui sp, 0x6ff00; again: addi a0, a0, 1; j again",
    "recurses": f"{SAY} again: addi sp, sp, -256; sw ra, 0(sp); jal ra, again",
    # Its stack is in its own memory, and grows below the usual region's begin.
    "own-stack": f"{SAY} li sp, {DATA + 0x400}; again: nop; j again",
    "rests-badly": f"{SAY} sw zero, 0(zero); again: j again",
    "loud": f"li s0, 17; again: li a7, 64; li a0, 1; li a1, {DATA}; li a2, 2048; li a3, 2048; add a2, a2, a3; ecall; addi s0, s0, -1; "
            f"bne s0, zero, again; {END}",
    "counts": f"li a1, {ROOM[1]}; lw a0, 0(a1); li a7, 93; ecall",
    "first": f"li a1, {ROOM[1]}; lw a1, 8(a1); li a2, 5; li a0, 1; li a7, 64; ecall; {END}",
}
# Those that take arguments, and what the function is called in which a program begins.
WITH_ROOM = ("counts", "first")
NAMES = {"mangled": "_ZN5gauge4markEv"}
# Functions beside that one, of programs that say something, by their files: at which word each is, apart from the code that is executed.
FUNCTIONS = {
    "zephyr": {"k_malloc": 1}, "both": {"malloc": 1, "pvPortMalloc": 2}, "pool": {"pool_alloc": 1},
    "pool-beside": {"malloc": 1, "pool_Allocate": 2},
    "mapped": {"k_malloc": 1, "malloc": 1}, "marked": {"k_malloc": 1, "__replaycheck_mapped": 1, "malloc": 2},
    "reserved": {"_alloc_pages": 1, "is_free": 2}, "newlib": {"malloc": 1, "_malloc_r": 2}, "bare-newlib": {"_malloc_r": 1},
    "rust": {"_RNvCseulmdZsCeCG_7___rustc12___rust_alloc": 1},
    "five": {f"take_{it}_alloc": it for it in range(1, 6)},
}
# Functions that give blocks of a heap of their own: a file that has one fails, whatever else it has.
ALLOCATORS = (
    "pvPortMalloc pvPortCalloc k_malloc k_calloc k_aligned_alloc k_heap_alloc k_heap_aligned_alloc rt_malloc rt_calloc rt_memheap_alloc "
    "rt_mp_alloc sys_heap_alloc os_memblock_get chHeapAlloc chHeapAllocAligned chPoolAlloc OSMemGet tx_byte_allocate tx_block_allocate "
    "osMemoryPoolAlloc heap_caps_malloc tlsf_malloc tlsf_memalign umm_malloc umm_calloc umm_multi_malloc o1heapAllocate").split()


def put_guests(folder: pathlib.Path) -> None:
    """Writes all of them into a folder."""
    for name, source in SOURCES.items():
        words = assemble(source)
        words += [0x13] * ((DATA - ENTRY) // 4 - len(words))
        symbols = [(NAMES.get(name, "start"), ENTRY, 0x100 if name in NAMES else 4), *([ROOM] if name in WITH_ROOM else [])]
        (folder / f"{name}.elf").write_bytes(elf(words, memory=0x2000, symbols=symbols, data=b"hi\n"))
    (folder / "placed.elf").write_bytes(placed_file())
    for name, functions in (*FUNCTIONS.items(), *((f"with-{it}", {"malloc": 1, it: 2}) for it in ALLOCATORS)):
        put_saying(folder / f"{name}.elf", [("start", ENTRY, 4), *((it, APART + 4 * at, 4) for it, at in functions.items())])
    put_saying(folder / "stripped.elf", [])
    compressed = bytearray((folder / "half.elf").read_bytes())
    compressed[36] |= 1
    (folder / "compressed.elf").write_bytes(compressed + b"riscv\0rv32i2p1_m2p0_a2p1_c2p0\0")


def put_saying(path: pathlib.Path, symbols: list[tuple[str, int, int]]) -> None:
    """Writes a program that says something, and has these functions."""
    words = assemble(SOURCES["says"])
    words += [0x13] * ((DATA - ENTRY) // 4 - len(words))
    path.write_bytes(elf(words, symbols=symbols, data=b"hi\n"))
