# Each core adds 1 to a byte of its own ten times, a transaction each time. The bytes of up to four cores lie in one word.

        lui     x6, 0x80000         # where RAM begins; core 0's byte is 128 bytes further on
        slli    x7, x10, 0
        add     x6, x6, x7          # this core's byte
        addi    x8, x0, 10          # how often
again:
        lbu     x5, 128(x6)
        addi    x5, x5, 1
        sb      x5, 128(x6)
        ecall                       # x17 = 0: the transaction ends
        addi    x8, x8, -1
        bne     x8, x0, again
        addi    x10, x0, 0
        addi    x17, x0, 93
        ecall                       # the core halts with 0
