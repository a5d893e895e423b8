"""What answers loads and stores of known devices: a function that `adopt` adds to a file once, by calls 63, 64 and 93.

The UART of QEMU's virt is a 16550; the manual of SiFive's FE310-G002 has its UART (chapter 18) and QEMU's source
(hw/misc/sifive_test.c) the test device; tohost and fromhost are as riscv-tests uses them, and the console's numbers as in QEMU's
source (hw/char/riscv_htif.c)."""
import struct

from replaycheck.guest.assembly import assemble

from .host_handler import halves_of

# Before the code: whether a byte was read ahead, the byte, the 16550's LCR, and the lower half of what is written to tohost.
STATE_SIZE = 16
NO_SUCH = 0xFFFFFFFD  # where a file has no tohost or fromhost

# a0: the address; a1: what is stored; a2: 1 for a store, 2 for one of a lower half, if the next instruction stores the upper
# one. Returns a1 = 1 and, for a load, its value in a0; a1 = 0 where there is no device. All other registers are left as they
# are. It calls nothing, so a trace has one frame of it.
HANDLER = """
        addi sp, sp, -32
        sw a2, 0(sp)
        sw a7, 4(sp)
        sw t0, 8(sp)
        sw t1, 12(sp)
        sw t2, 16(sp)
        sw a1, 20(sp)
        lui t2, STATE_HIGH
        addi t2, t2, STATE_LOW
        lui t0, 0x10000
        sub t1, a0, t0
        sltiu t0, t1, 8
        bne t0, zero, uart
        lui t0, 0x10013
        sub t1, a0, t0
        sltiu t0, t1, 28
        bne t0, zero, sifive
        lui t0, 0x100
        beq a0, t0, test
        lui t0, TOHOST_HIGH
        addi t0, t0, TOHOST_LOW
        beq a0, t0, host
        addi t0, t0, 4
        beq a0, t0, upper
        li a1, 0
        j back
quiet:  li a0, 0
known:  li a1, 1
back:   lw a2, 0(sp)
        lw a7, 4(sp)
        lw t0, 8(sp)
        lw t1, 12(sp)
        lw t2, 16(sp)
        addi sp, sp, 32
        jalr zero, 0(ra)

# A byte is read ahead, as a register says whether there is one. t0: 1 if there is; t1: the register.
peek:   lw t0, 0(t2)
        bne t0, zero, peeked
        li a0, 0
        addi a1, t2, 4
        li a2, 1
        li a7, 63
        ecall
        slt t0, zero, a0
        sw t0, 0(t2)
peeked: li a1, 4
        beq t1, a1, sifive_byte
        li a1, 5
        beq t1, a1, line_status
        beq t0, zero, quiet
take:   sw zero, 0(t2)
        lbu a0, 4(t2)
        j known
line_status: addi a0, t0, 0x60          # room to send, and whether a byte is there
        j known
sifive_byte: bne t0, zero, take
        lui a0, 0x80000                 # none
        j known

send:   li a0, 1
        addi a1, sp, 20
        li a2, 1
        li a7, 64
        ecall
        j quiet

# t1: the register, of which the first is the divisor's if bit 7 of LCR is set.
uart:   lw t0, 8(t2)
        andi t0, t0, 0x80
        bne a2, zero, uart_store
        li a0, 5
        beq t1, a0, peek
        beq t1, zero, uart_take
        li a0, 3
        beq t1, a0, line_control
        li a0, 2
        beq t1, a0, no_interrupt
        li a0, 6
        bne t1, a0, quiet
        li a0, 0xb0                     # the other side is there
        j known
no_interrupt: li a0, 1
        j known
line_control: lw a0, 8(t2)
        j known
uart_take: bne t0, zero, quiet
        j peek
uart_store: li a0, 3
        beq t1, a0, new_line_control
        bne t1, zero, quiet
        bne t0, zero, quiet
        j send
new_line_control: andi a1, a1, 255
        sw a1, 8(t2)
        j quiet

sifive: bne a2, zero, sifive_store
        li a0, 4
        beq t1, a0, peek
        j quiet
sifive_store: beq t1, zero, send
        j quiet

# The lower half says that it has passed or failed, the upper one with which status.
test:   beq a2, zero, quiet
        slli t0, a1, 16
        srli t0, t0, 16
        srli a0, a1, 16
        li t1, 0x3333
        beq t0, t1, exit
        li a0, 0
        li t1, 0x5555
        beq t0, t1, exit
        j quiet

# An odd number ends the program with its half. An even one is the address of four doubled words, a call, whose answer
# takes the place of the first. A lower half waits for the upper one, if that is stored next.
host:   beq a2, zero, quiet
        li t0, 2
        bne a2, t0, asked
        sw a1, 12(t2)
        j quiet
asked:  beq a1, zero, quiet
        andi t0, a1, 1
        srli a0, a1, 1
        bne t0, zero, exit
        mv t1, a1
        lw a7, 0(t1)
        lw a0, 8(t1)
        lw a1, 16(t1)
        lw a2, 24(t1)
        ecall
        sw a0, 0(t1)
        srai a0, a0, 31
        sw a0, 4(t1)
        lui t0, FROMHOST_HIGH
        addi t0, t0, FROMHOST_LOW
        li t1, NO_SUCH
        beq t0, t1, quiet
        li t1, 1
        sw t1, 0(t0)
        j quiet
exit:   li a7, 93
        ecall

# The upper half has the device and the command: 0x100 is a read by the console, which waits if there is no byte, 0x101 a write.
upper:  beq a2, zero, quiet
        srli t1, a1, 16
        lw a1, 12(t2)
        sw zero, 12(t2)
        beq t1, zero, asked
        sw a1, 20(sp)
        andi a0, t1, 1
        addi a7, a0, 63
        xor t0, t1, a0
        addi t0, t0, -256
        bne t0, zero, quiet
        addi a1, sp, 20
        li a2, 1
        ecall
        slt t0, zero, a0
        beq t0, zero, quiet
        lui t0, FROMHOST_HIGH
        addi t0, t0, FROMHOST_LOW
        li a0, NO_SUCH
        beq t0, a0, quiet
        slli t1, t1, 16
        sw t1, 4(t0)
        lbu t1, 20(sp)
        addi t1, t1, 0x100
        sw t1, 0(t0)
        j quiet
"""


def text_of(state, tohost, fromhost):
    """The handler in assembly, for the addresses of its state and of the words of a host, NO_SUCH if there are none."""
    text = "\n".join(line.partition("#")[0].rstrip() for line in HANDLER.splitlines())
    numbers = {**halves_of("STATE", state), **halves_of("FROMHOST", fromhost), **halves_of("TOHOST", tohost)}
    for name, number in {**numbers, "NO_SUCH": str(NO_SUCH - (1 << 32))}.items():
        text = text.replace(name, number)
    return text


def code_of(state, tohost, fromhost):
    words = assemble(text_of(state, tohost, fromhost))
    return struct.pack(f"<{len(words)}I", *words)
