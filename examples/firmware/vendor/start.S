# A start file as vendors ship it: it sets control registers, waits until the clock is exact, calls main, and rests after it.

        .section .text.start, "ax", @progbits
        .globl  _start
        .type   _start, @function
_start:
        csrw    mie, zero                       # no interrupts until main allows them
        la      t0, trap
        csrw    mtvec, t0
        csrw    mscratch, zero
        csrr    t0, mhartid                     # the other processors, if there are any, wait for ever
        bnez    t0, park
        .option push
        .option norelax                         # the linker would make gp relative to itself
        la      gp, __global_pointer$
        .option pop
        la      tp, __thread_data               # picolibc's errno is found by tp

        li      t2, 100                         # so many cycles until the clock is exact
        csrr    t0, mcycle
settle: csrr    t1, mcycle
        sub     t1, t1, t0
        bltu    t1, t2, settle
        fence.i                                 # a loader has written the code
        call    main
        call    _exit
park:   wfi
        j       park
        .size   _start, . - _start

        .balign 4
        .globl  trap
        .type   trap, @function
trap:   csrr    a0, mcause                      # for a debugger
        csrr    a1, mepc
        j       park
        .size   trap, . - trap
