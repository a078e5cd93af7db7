# The update of lost.s in one transaction: each core adds 3 to the word.

        lui     x6, 0x80000         # where RAM begins; the word is 128 bytes further on
        lw      x5, 128(x6)
        addi    x5, x5, 3
        sw      x5, 128(x6)
        ecall                       # x17 = 0: the transaction ends
        addi    x10, x0, 0
        addi    x17, x0, 93
        ecall                       # the core halts with 0
