# A roll of tickets that all cores share: each core takes the next number off it, prints the number, and halts, in one transaction.
# No two cores get the same number, whatever the order: a core that has read the word before another's commit changed it is rolled
# back and begins anew.
#
#     ./tcc run --raw --cores 2 --seed 7 examples/tickets.bin
#
# Each core begins at the first word with x10 = its number, x11 = the number of cores and all other registers zero.

        lui     x6, 0x80000         # 80000337  where RAM begins; the roll is 64 bytes further on
        lw      x5, 64(x6)          # 04032283  the number on the next ticket
        addi    x7, x5, 1           # 00128393
        sw      x7, 64(x6)          # 04732023  others see it once this transaction has committed
        addi    x10, x5, '0'        # 03028513
        addi    x17, x0, 1          # 00100893
        ecall                       # 00000073  x17 = 1: the digit in x10 goes on the console, of this attempt
        addi    x10, x0, 0          # 00000513
        addi    x17, x0, 93         # 05d00893
        ecall                       # 00000073  x17 = 93: the transaction ends, and its commit halts the core with the code in x10, 0
