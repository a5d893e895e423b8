# From the first instruction to main, and from main to _exit.
#
# replaycheck and qemu-riscv32 give a program its stack pointer, its initialised data and zeros in .bss. A board gives none of
# these: assemble with -DBOARD, link with -Wl,--defsym=__stack_top=ADDRESS, and have the loader put .data in its place.

        .section .text.start, "ax", @progbits
        .globl  _start
        .type   _start, @function
_start:
        .option push
        .option norelax                         # the linker would make gp relative to itself
        la      gp, __global_pointer$
        .option pop
        la      tp, __thread_data               # picolibc's errno is found by tp
#ifdef BOARD
        la      sp, __stack_top - 16
        sw      zero, 0(sp)                     # no arguments
        la      t0, __bss_start
        la      t1, __bss_end
clear_bss:
        bgeu    t0, t1, construct
        sw      zero, 0(t0)
        addi    t0, t0, 4
        j       clear_bss
#endif
construct:
        la      s0, __init_array_start          # C++ constructors, and functions marked so in C
        la      s1, __init_array_end
next_constructor:
        bgeu    s0, s1, unset_registers
        lw      t0, 0(s0)
        jalr    t0
        addi    s0, s0, 4
        j       next_constructor

# The machine starts with every register zero and defined. A variable that the compiler keeps in a register and that nobody has
# set should be neither: so each register that main may find is loaded with a word that nobody has written.
unset_registers:
        addi    sp, sp, -16
        .irp    register, a2, a3, a4, a5, a6, a7, t0, t1, t2, t3, t4, t5, t6, s0, s1, s2, s3, s4, s5, s6, s7, s8, s9, s10, s11
        lw      \register, 0(sp)
        .endr
        addi    sp, sp, 16
        lw      a0, 0(sp)                       # argc, 0 in replaycheck
        addi    a1, sp, 4                       # argv
        call    program
        call    _exit
        .size   _start, . - _start

# A machine gives no arguments. With -DARGUMENTS main gets those that `replaycheck exec FILE ARG ..` has put into this room: argc, argv[],
# 0 and the texts. Without any the room has a name of the program only. Arguments on the stack, as qemu-riscv32 gives them, stay.
#ifdef ARGUMENTS
        .set    program, with_arguments
        .type   with_arguments, @function
with_arguments:
        bnez    a0, has_arguments
        la      a1, __replaycheck_arguments
        lw      a0, 0(a1)
        addi    a1, a1, 4
has_arguments:
        tail    main
        .size   with_arguments, . - with_arguments

        .data
        .balign 4
        .globl  __replaycheck_arguments
        .type   __replaycheck_arguments, @object
        .size   __replaycheck_arguments, 1024
__replaycheck_arguments:
        .word   1, .Lname, 0
.Lname: .asciz  "program"
        .zero   1024 - 12 - 8
#else
        .set    program, main
#endif
