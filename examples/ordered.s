# A loop whose iterations are shared out among the cores, and commit in the order of the loop. Iteration i, from 1 to 8, makes the result
# 16 times what it was and i more, so in hexadecimal the result's digits are the iterations in the order in which they came. Core c does
# the iterations c + 1, c + 1 + cores and so on, each in a transaction of its own. Before the transaction begins, x27 is its number.
#
#     ./tcc phases --raw --cores 4 --seed 1 examples/ordered.bin
#
# makes x27 the phase of the transaction, and earlier phases commit first: the result is 12345678, whatever the seed is. With `run` in place
# of `phases` nothing looks at x27, and the result hangs on the seed.
#
# Each core begins at the first word with x10 = its number, x11 = the number of cores and all other registers zero.

        lui     x6, 0x80000         # 80000337  where RAM begins; the result is 128 bytes further on
        addi    x12, x0, 9          # 00900613  where the loop ends
        addi    x27, x10, 1         # 00150d93  this core's first iteration
        ecall                       # 00000073  x17 = 0: the first transaction ends, which was in phase 0
again:
        bge     x27, x12, done      # 02cdd063
        lw      x5, 128(x6)         # 08032283
        slli    x5, x5, 4           # 00429293
        add     x5, x5, x27         # 01b282b3
        sw      x5, 128(x6)         # 08532023
        add     x27, x27, x11       # 00bd8db3  this core's next iteration, and the phase of its next transaction
        ecall                       # 00000073  the iteration ends
        jal     x0, again           # fe5ff06f
done:
        addi    x10, x0, 0          # 00000513
        addi    x17, x0, 93         # 05d00893
        ecall                       # 00000073  the core halts with 0
