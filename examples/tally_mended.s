# The tally of tally.s, mended: each reading and its storing are one transaction.

        lui     x6, 0x80000         # where RAM begins; the word is 128 bytes further on
        addi    x8, x0, 4           # how often
again:
        lw      x5, 128(x6)
        addi    x5, x5, 1
        sw      x5, 128(x6)
        ecall                       # the transaction that has read and stored ends here
        addi    x8, x8, -1
        bne     x8, x0, again
        addi    x10, x0, 0
        addi    x17, x0, 93
        ecall                       # the core halts with 0
