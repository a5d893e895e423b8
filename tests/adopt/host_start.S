# Start file and place of the programs that `test-adopt` compares with qemu-system-riscv32.
        .section .text.start, "ax", @progbits
        .globl  _start
        .type   _start, @function
_start: la      sp, __stack
        call    main
1:      j       1b
        .size   _start, . - _start
