# The update of lost_mended.s with work before it: each transaction reads the word late.

        lui     x6, 0x80000         # where RAM begins; the word is 128 bytes further on
        addi    x8, x0, 3           # how often
again:
        .rept   16                  # work that needs no memory
        addi    x9, x9, 1
        .endr
        lw      x5, 128(x6)
        addi    x5, x5, 1
        sw      x5, 128(x6)
        ecall                       # the transaction ends
        addi    x8, x8, -1
        bne     x8, x0, again
        addi    x10, x0, 0
        addi    x17, x0, 93
        ecall                       # the core halts with 0
