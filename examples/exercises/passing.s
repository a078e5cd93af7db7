# Message passing, for two cores: core 0 stores 1 to a word of data, and then 1 to a flag. Core 1 loads the flag, and then the data, and
# halts with 2 * flag + data. Each access is a transaction of its own.

        lui     x6, 0x80000         # where RAM begins; the data are 64 bytes further on, and the flag 96
        bne     x10, x0, reads
        addi    x9, x0, 1
        sw      x9, 64(x6)
        ecall                       # x17 = 0: the transaction ends
        sw      x9, 96(x6)
        addi    x17, x0, 93
        ecall                       # core 0 halts with 0
reads:
        lw      x8, 96(x6)
        ecall
        lw      x7, 64(x6)
        slli    x10, x8, 1
        add     x10, x10, x7
        addi    x17, x0, 93
        ecall                       # core 1 halts with 2 * flag + data
