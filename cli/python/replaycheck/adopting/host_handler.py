"""What answers the calls of a host: a function that `adopt` adds to a file once, for RV32IM, by calls 63, 64 and 93.

Arm's "Semihosting for AArch32 and AArch64", 2023Q3, says what each operation takes and returns, and "RISC-V Semihosting",
version 0.4, how it is called. Where they leave a choice, it is what qemu-system-riscv32 does whose streams are pipes."""
import struct

from replaycheck.guest.assembly import assemble

# What the code uses begins the piece: where the next read of the file of features begins, how often the clock was asked,
# the last error, the features, their file's name, and, where the file has none, room for arguments.
FEATURES, FEATURES_NAME = b"SHFB\x03", b":semihosting-features"
FEATURES_AT, NAME_AT, ROOM_AT, ROOM_SIZE = 16, 24, 48, 1024

# The operation is in a0, its parameter in a1; the answer is in a0. All other registers are left as they are. It calls
# nothing, so a trace has one frame of it. Handles: 0 to 2 and, if they were opened, 4 to 6 are those of calls 63 and 64;
# 8 is the file of features.
HANDLER = """
        addi sp, sp, -32
        sw a1, 0(sp)
        sw a2, 4(sp)
        sw a7, 8(sp)
        sw t0, 12(sp)
        sw t1, 16(sp)
        sw t2, 20(sp)
        sw t3, 24(sp)
        li t0, 0x03
        beq a0, t0, write_byte
        li t0, 0x05
        beq a0, t0, write
        li t0, 0x04
        beq a0, t0, write_text
        li t0, 0x07
        beq a0, t0, read_byte
        li t0, 0x06
        beq a0, t0, read
        li t0, 0x01
        beq a0, t0, open
        li t0, 0x02
        beq a0, t0, close
        li t0, 0x08
        beq a0, t0, is_error
        li t0, 0x09
        beq a0, t0, close               # is it a terminal: 0, as it is none
        li t0, 0x0a
        beq a0, t0, seek
        li t0, 0x0c
        beq a0, t0, length
        li t0, 0x10
        beq a0, t0, clock
        li t0, 0x13
        beq a0, t0, last_error
        li t0, 0x15
        beq a0, t0, command_line
        li t0, 0x16
        beq a0, t0, heap_info
        li t0, 0x18
        beq a0, t0, exit
        li t0, 0x20
        beq a0, t0, exit_extended
        li t0, 0x30
        beq a0, t0, elapsed
        li t0, 0x31
        beq a0, t0, frequency

        li t0, 38                       # ENOSYS: no such operation
        j failed
no_file: li t0, 2                       # ENOENT
        j failed
too_long: li t0, 7                      # E2BIG
        j failed
bad_handle: li t0, 9                    # EBADF
        j failed
denied: li t0, 13                       # EACCES
        j failed
invalid: li t0, 22                      # EINVAL
        j failed
no_place: li t0, 29                     # ESPIPE
failed: lui t1, STATE_HIGH
        addi t1, t1, STATE_LOW
        sw t0, 8(t1)
        li a0, -1
        j done
zero:   li a0, 0
done:   lw a1, 0(sp)
        lw a2, 4(sp)
        lw a7, 8(sp)
        lw t0, 12(sp)
        lw t1, 16(sp)
        lw t2, 20(sp)
        lw t3, 24(sp)
        addi sp, sp, 32
        jalr zero, 0(ra)

# a1: address of a byte
write_byte: mv t0, a1
        li t1, 1
        j to_console

# a1: a text
write_text: mv t0, a1
        mv t1, a1
next_byte: lbu t2, 0(t1)
        beq t2, zero, whole_text
        addi t1, t1, 1
        j next_byte
whole_text: sub t1, t1, t0
to_console: li t2, 1
        li t3, 0
        j send

# a1: handle, buffer, length. Returns how many bytes weren't written; t3 keeps that number, or makes it 0.
write:  lw t2, 0(a1)
        lw t0, 4(a1)
        lw t1, 8(a1)
        li t3, -1
        andi t2, t2, -5
send:   beq t1, zero, sent
        mv a0, t2
        mv a1, t0
        mv a2, t1
        li a7, 64
        ecall
        bge zero, a0, sent
        add t0, t0, a0
        sub t1, t1, a0
        j send
sent:   and a0, t1, t3
        j done

# a1: handle, buffer, length. Returns how many bytes weren't read.
read:   lw t2, 0(a1)
        lw t0, 4(a1)
        lw t1, 8(a1)
        li t3, 8
        beq t2, t3, read_features
        andi t2, t2, -5
receive: beq t1, zero, received
        mv a0, t2
        mv a1, t0
        mv a2, t1
        li a7, 63
        ecall
        bge zero, a0, received
        add t0, t0, a0
        sub t1, t1, a0
        j receive
received: mv a0, t1
        j done
read_features: lui t2, STATE_HIGH
        addi t2, t2, STATE_LOW
        lw t3, 0(t2)
next_feature: beq t1, zero, have_features
        sltiu a0, t3, 5
        beq a0, zero, have_features
        add a0, t2, t3
        lbu a0, 16(a0)
        sb a0, 0(t0)
        addi t0, t0, 1
        addi t1, t1, -1
        addi t3, t3, 1
        j next_feature
have_features: sw t3, 0(t2)
        j received

# Returns the byte, or -1 at the end of the input.
read_byte: li a0, 0
        addi a1, sp, 28
        li a2, 1
        li a7, 63
        ecall
        bge zero, a0, no_byte
        lbu a0, 28(sp)
        j done
no_byte: li a0, -1
        j done

# a1: name, mode, length of the name. ":tt" is the console: modes 0 to 3 read, 4 to 7 write, 8 to 11 are standard error.
open:   lw t0, 0(a1)
        lw t1, 4(a1)
        lw t2, 8(a1)
        li t3, 21
        beq t2, t3, open_features
        li t3, 3
        bne t2, t3, no_file
        lbu t2, 0(t0)
        li t3, 58
        bne t2, t3, no_file
        lbu t2, 1(t0)
        li t3, 116
        bne t2, t3, no_file
        lbu t2, 2(t0)
        bne t2, t3, no_file
        sltiu t2, t1, 12
        beq t2, zero, invalid
        srli a0, t1, 2
        addi a0, a0, 4
        j done
open_features: lui a1, STATE_HIGH
        addi a1, a1, STATE_LOW
        li t2, 21
next_letter: lbu t3, 0(t0)
        lbu a0, 24(a1)
        bne t3, a0, no_file
        addi t0, t0, 1
        addi a1, a1, 1
        addi t2, t2, -1
        bne t2, zero, next_letter
        sltiu t2, t1, 2
        beq t2, zero, denied
        sw zero, -21(a1)
        li a0, 8
        j done

# a1: a handle. Returns 0 if there is one.
close:  lw t0, 0(a1)
        li t1, 8
        beq t0, t1, zero
        andi t0, t0, -5
        sltiu t0, t0, 3
        beq t0, zero, bad_handle
        j zero

# a1: what an operation has returned
is_error: lw a0, 0(a1)
        slti a0, a0, 0
        j done

# a1: handle, place
seek:   lw t0, 0(a1)
        li t1, 8
        beq t0, t1, seek_feature
        andi t0, t0, -5
        sltiu t0, t0, 3
        beq t0, zero, bad_handle
        j no_place
seek_feature: lw t0, 4(a1)
        sltiu t1, t0, 6
        beq t1, zero, invalid
        lui t1, STATE_HIGH
        addi t1, t1, STATE_LOW
        sw t0, 0(t1)
        j zero

# a1: a handle
length: lw t0, 0(a1)
        li a0, 5
        li t1, 8
        beq t0, t1, done
        j close

# A clock that is one further each time it is asked, in hundredths of a second.
clock:  lui t0, STATE_HIGH
        addi t0, t0, STATE_LOW
        lw a0, 4(t0)
        addi t1, a0, 1
        sw t1, 4(t0)
        j done

# a1: where the 64 bits go
elapsed: lui t0, STATE_HIGH
        addi t0, t0, STATE_LOW
        lw t1, 4(t0)
        addi t2, t1, 1
        sw t2, 4(t0)
        sw t1, 0(a1)
        sw zero, 4(a1)
        j zero
frequency: li a0, 100
        j done
last_error: lui t0, STATE_HIGH
        addi t0, t0, STATE_LOW
        lw a0, 8(t0)
        j done

# a1: buffer, its size, in whose place the length goes. The arguments after the program's name, with spaces between them.
command_line: lw t0, 0(a1)
        lw t1, 4(a1)
        lui t2, ROOM_HIGH
        addi t2, t2, ROOM_LOW
        lw t3, 0(t2)
        addi t2, t2, 8
        addi t3, t3, -1
next_argument: bge zero, t3, line_ends
        lw a0, 0(t2)
        addi t2, t2, 4
        addi t3, t3, -1
next_of_argument: lbu a2, 0(a0)
        beq a2, zero, argument_ends
        addi a0, a0, 1
        beq t1, zero, too_long
        sb a2, 0(t0)
        addi t0, t0, 1
        addi t1, t1, -1
        j next_of_argument
argument_ends: bge zero, t3, line_ends
        beq t1, zero, too_long
        li a2, 32
        sb a2, 0(t0)
        addi t0, t0, 1
        addi t1, t1, -1
        j next_argument
line_ends: beq t1, zero, too_long
        sb zero, 0(t0)
        lw t1, 0(a1)
        sub t0, t0, t1
        sw t0, 4(a1)
        j zero

# a1: the address of four words. 0 says that the program has to know by itself where its heap and its stack are.
heap_info: lw t0, 0(a1)
        sw zero, 0(t0)
        sw zero, 4(t0)
        sw zero, 8(t0)
        sw zero, 12(t0)
        j zero

# a1: a reason
exit:   mv t0, a1
        li a0, 0
        j ending
# a1: reason, status
exit_extended: lw t0, 0(a1)
        lw a0, 4(a1)
ending: li t1, 0x20026                  # ADP_Stopped_ApplicationExit
        beq t0, t1, leave
        li a0, 1
leave:  li a7, 93
        ecall
"""


def halves_of(name, address):
    """An address as the two numbers that lui and addi take."""
    low = (address & 0xFFF) - ((address & 0x800) << 1)
    return {f"{name}_HIGH": hex((address - low & 0xFFFFFFFF) >> 12), f"{name}_LOW": str(low)}


def text_of(state, room):
    """The handler in assembly, for the addresses of its state and of the room for arguments."""
    text = "\n".join(line.partition("#")[0].rstrip() for line in HANDLER.splitlines())
    for name, number in {**halves_of("STATE", state), **halves_of("ROOM", room)}.items():
        text = text.replace(name, number)
    return text


def state_of(has_room):
    """The bytes before the code, with or without room for arguments."""
    state = bytes(FEATURES_AT) + FEATURES + bytes(NAME_AT - FEATURES_AT - len(FEATURES)) + FEATURES_NAME
    return state + bytes(ROOM_AT - len(state)) + (b"" if has_room else bytes(ROOM_SIZE))


def code_of(state, room):
    words = assemble(text_of(state, room))
    return struct.pack(f"<{len(words)}I", *words)
