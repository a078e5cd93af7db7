# A tally that loses updates: each core adds 1 to a word four times, but it reads the word in one transaction and stores it in the next, so
# that another's store between the two is overwritten. Two cores should make it 8.
#
#     ./tcc outcomes --raw --cores 2 --tell memory examples/tally.bin
#
# Each core begins at the first word with x10 = its number, x11 = the number of cores and all other registers zero.

        lui     x6, 0x80000         # where RAM begins; the word is 128 bytes further on
        addi    x8, x0, 4           # how often
again:
        lw      x5, 128(x6)
        ecall                       # x17 = 0: the transaction that has read ends here
        addi    x5, x5, 1
        sw      x5, 128(x6)
        ecall                       # the transaction that has stored ends here
        addi    x8, x8, -1
        bne     x8, x0, again
        addi    x10, x0, 0
        addi    x17, x0, 93
        ecall                       # the core halts with 0
