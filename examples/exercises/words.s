# Each core adds 1 to a word of its own ten times, a transaction each time. The words of all cores (eight at most) lie in one line.

        lui     x6, 0x80000         # where RAM begins; core 0's word is 128 bytes further on
        slli    x7, x10, 2
        add     x6, x6, x7          # this core's word
        addi    x8, x0, 10          # how often
again:
        lw      x5, 128(x6)
        addi    x5, x5, 1
        sw      x5, 128(x6)
        ecall                       # x17 = 0: the transaction ends
        addi    x8, x8, -1
        bne     x8, x0, again
        addi    x10, x0, 0
        addi    x17, x0, 93
        ecall                       # the core halts with 0
