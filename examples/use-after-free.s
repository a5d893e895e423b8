# main allocates eight bytes, a size that it loads from .data. drop frees them, and total has first_item read them.

        .globl  main, drop, total, first_item, item_size
        .type   main, @function
main:
        lui     t0, %hi(item_size)
        lw      a0, %lo(item_size)(t0)
        li      a7, 2001                # malloc
        ecall
        mv      s0, a0
        jal     drop
        mv      a0, s0
        jal     total
        li      a7, 93                  # exit
        li      a0, 0
        ecall
        .size   main, . - main

        .type   drop, @function
drop:
        li      a7, 2002                # free
        ecall
        ret
        .size   drop, . - drop

        .type   total, @function
total:
        addi    sp, sp, -16
        sw      ra, 12(sp)
        jal     first_item
        lw      ra, 12(sp)
        addi    sp, sp, 16
        ret
        .size   total, . - total

        .type   first_item, @function
first_item:
        lw      a0, 0(a0)
        ret
        .size   first_item, . - first_item

        .data
        .type   item_size, @object
item_size:
        .word   8
        .size   item_size, . - item_size

        .bss
        .space  60
