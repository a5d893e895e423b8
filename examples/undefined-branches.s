# read_header, and read_item through is_empty, branch on words of the stack that nobody has written.

        .globl  main, read_header, read_item, is_empty
        .type   main, @function
main:
        addi    sp, sp, -16
        jal     read_header
        jal     read_item
        li      a7, 93                  # exit
        li      a0, 0
        ecall
        .size   main, . - main

        .type   read_header, @function
read_header:
        lw      a0, 0(sp)
        beqz    a0, header_read
header_read:
        ret
        .size   read_header, . - read_header

        .type   read_item, @function
read_item:
        addi    sp, sp, -16
        sw      ra, 12(sp)
        jal     is_empty
        lw      ra, 12(sp)
        addi    sp, sp, 16
        ret
        .size   read_item, . - read_item

        .type   is_empty, @function
is_empty:
        lw      a0, 20(sp)
        beqz    a0, item_read
item_read:
        ret
        .size   is_empty, . - is_empty
