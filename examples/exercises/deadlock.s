# Two cores that wait for one another: each waits until the other's word isn't 0, and stores to its own word after that.
# Each look at the word is a transaction of its own.

        lui     x6, 0x80000         # where RAM begins; the words are 64 and 96 bytes further on
        slli    x7, x10, 5          # 0 on core 0, 32 on core 1
        or      x7, x7, x6          # its own word is at 64 + x7
        xori    x8, x7, 32          # and the other's at 64 + x8
        addi    x9, x0, 1
wait:
        lw      x5, 64(x8)
        ecall                       # x17 = 0: the look ends
        beq     x5, x0, wait
        sw      x9, 64(x7)
        addi    x10, x0, 0
        addi    x17, x0, 93
        ecall                       # the core halts with 0
