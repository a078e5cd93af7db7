# Prints the squares of 1 to 5 on the console and keeps them in a table, a transaction for each; then adds the table up and
# halts with the sum, 55, as the exit code.
#
#     ./tcc run --raw examples/squares.bin
#
# All is done after 176 events, 122 of them instructions. The console has `1 4 9 16 25 `, and the report has the last
# commit's five loads.
#
# A report gives the console in hexadecimal. To read it as text:
#
#     ./tcc run --raw examples/squares.bin | sed -n 's/^console //p' | xxd -r -p
#
# The machine begins at the first word with x10 = 0 (the core's number), x11 = 1 (the number of cores) and all other registers
# zero. An ECALL ends the transaction where x17 is 0, prints the low byte of x10 where it is 1, and ends the transaction and
# halts the core with the code in x10 where it is 93.

        lui     x8, 0x80000         # where RAM begins; the table is 256 bytes further on
        addi    x9, x0, 1           # the number whose square is next
        addi    x13, x0, 5          # the last one
        addi    x15, x0, 10

square: mul     x18, x9, x9
        slli    x12, x9, 2
        add     x12, x12, x8
        sw      x18, 252(x12)       # entry n of the table, from 1, is at 252 + 4 * n

        addi    x17, x0, 1          # print: the tens, where there are any, the ones, and a space
        divu    x10, x18, x15
        beq     x10, x0, ones
        addi    x10, x10, '0'
        ecall
ones:   remu    x10, x18, x15
        addi    x10, x10, '0'
        ecall
        addi    x10, x0, ' '
        ecall

        addi    x17, x0, 0          # the transaction ends: now the entry is in RAM and the digits are on the console
        ecall
        addi    x9, x9, 1
        bge     x13, x9, square

        addi    x10, x0, 0          # the last transaction: the sum of the table
        addi    x9, x0, 1
sum:    slli    x12, x9, 2
        add     x12, x12, x8
        lw      x18, 252(x12)
        add     x10, x10, x18
        addi    x9, x9, 1
        bge     x13, x9, sum
        addi    x17, x0, 93         # halt with the sum
        ecall
