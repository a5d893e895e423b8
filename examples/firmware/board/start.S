# A board's own start: code and constants in flash, data that is copied from there to RAM, a stack at the end of RAM.

        .section .text.start, "ax", @progbits
        .globl  _start
        .type   _start, @function
_start:
        csrw    mie, zero                       # no interrupts
        la      t0, trap
        csrw    mtvec, t0
        .option push
        .option norelax                         # the linker would make gp relative to itself
        la      gp, __global_pointer$
        .option pop
        la      sp, __stack_top
        csrr    a0, mhartid                     # the other processors, if there are any, wait for ever
        bnez    a0, park

        la      a0, __data_source
        la      a1, __data_start
        la      a2, __data_end
copy:   bgeu    a1, a2, copied
        lw      t0, 0(a0)
        sw      t0, 0(a1)
        addi    a0, a0, 4
        addi    a1, a1, 4
        j       copy
copied: la      a1, __bss_start
        la      a2, __bss_end
clear:  bgeu    a1, a2, cleared
        sw      zero, 0(a1)
        addi    a1, a1, 4
        j       clear
cleared:
        fence.i
        call    main
        call    _exit
park:   wfi
        j       park
        .size   _start, . - _start

        .balign 4
        .globl  trap
        .type   trap, @function
trap:   csrr    t0, mcause
        csrr    t1, mepc
        mret
        .size   trap, . - trap
