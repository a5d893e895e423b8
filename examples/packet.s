# main allocates eight bytes and reads as many of the input into them. The first says how many of the bytes after it are to be added
# up, which nobody tests. The sum is the exit status.

        .globl  main, total
        .type   main, @function
main:
        li      a7, 2001                # malloc
        li      a0, 8
        ecall
        mv      s0, a0
        li      a7, 63                  # read
        li      a0, 0
        mv      a1, s0
        li      a2, 8
        ecall
        mv      a0, s0
        jal     total
        li      a7, 93                  # exit
        ecall
        .size   main, . - main

        .type   total, @function
total:
        lbu     a1, 0(a0)               # how many are left
        li      a2, 0
next:
        beqz    a1, done
        addi    a0, a0, 1
        lbu     a3, 0(a0)
        add     a2, a2, a3
        addi    a1, a1, -1
        j       next
done:
        mv      a0, a2
        ret
        .size   total, . - total
