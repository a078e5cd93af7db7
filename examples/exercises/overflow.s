# A transaction that is larger than a small cache: each core adds 1 to a word of each of four lines, in one transaction, and halts.

        lui     x6, 0x80000         # where RAM begins; the first of the words is 128 bytes further on
        addi    x8, x0, 4           # how many lines
again:
        lw      x5, 128(x6)
        addi    x5, x5, 1
        sw      x5, 128(x6)
        addi    x6, x6, 32          # the next line
        addi    x8, x8, -1
        bne     x8, x0, again
        addi    x10, x0, 0
        addi    x17, x0, 93
        ecall                       # the transaction ends, and the core halts with 0
