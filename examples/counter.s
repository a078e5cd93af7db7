# A counter that all cores share: each adds 1 to it a hundred times, one transaction each time, and then halts. With n cores
# it ends at 100 n whatever the order, since a transaction whose read was overtaken is rolled back and executed again.

        .globl  _start
        .text
_start:
        la      t0, counter
        li      t1, 100
again:
        lw      t2, 0(t0)
        addi    t2, t2, 1
        sw      t2, 0(t0)
        li      a7, 0
        ecall                           # the transaction ends
        addi    t1, t1, -1
        bnez    t1, again
        li      a0, 0
        li      a7, 93
        ecall                           # the core halts

        .data
        .balign 32
counter:
        .word   0
