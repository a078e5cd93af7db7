# The smallest program worth a report: one transaction stores the number 7, a second one halts the core.
#
#     ./tcc run --raw examples/first.bin
#
# The machine begins at the first word with x10 = 0 (the core's number), x11 = 1 (the number of cores) and all other registers
# zero. Each line below is one 32-bit word of the image; first.bin holds the six words, little-endian.

        addi    x5, x0, 7           # 00700293  x5 = 7
        lui     x6, 0x80000         # 80000337  x6 = 0x80000000, where RAM begins
        sw      x5, 64(x6)          # 04532023  waits in the cache until the transaction commits
        ecall                       # 00000073  x17 = 0: the transaction ends, and a new one begins at the next word
        addi    x17, x0, 93         # 05d00893
        ecall                       # 00000073  x17 = 93: the transaction ends and halts the core with the code in x10, 0
