# Store buffering, for two cores: each stores 1 to a word of its own, and then loads the other's. It halts with what it loaded.
# The store and the load are one transaction.

        lui     x6, 0x80000         # where RAM begins; the words are 64 and 96 bytes further on
        slli    x7, x10, 5          # 0 on core 0, 32 on core 1
        or      x7, x7, x6          # its own word is at 64 + x7
        xori    x8, x7, 32          # and the other's at 64 + x8
        addi    x9, x0, 1
        sw      x9, 64(x7)
        lw      x10, 64(x8)
        addi    x17, x0, 93
        ecall                       # the core halts with what it loaded
