# A chip's start: its boot ROM has loaded flash and RAM, as the file says. This sets the stack pointer to the end of RAM and clears .bss.

        .section .text.start, "ax", @progbits
        .globl  _start
        .type   _start, @function
_start:
        csrw    mie, zero                       # no interrupts
        .option push
        .option norelax                         # the linker would make gp relative to itself
        la      gp, __global_pointer$
        .option pop
        la      sp, __stack_top
        la      a0, __bss_start
        la      a1, __bss_end
clear:  bgeu    a0, a1, cleared
        sw      zero, 0(a0)
        addi    a0, a0, 4
        j       clear
cleared:
        call    main
        call    _exit
        .size   _start, . - _start
