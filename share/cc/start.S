# Where every core begins: its stack, thread-local data at the stack's top, then main(core, cores), and a halt with what it returns. A core
# begins with its number in a0 and the number of cores in a1; all other registers are zero.

        .section .text.start, "ax"
        .globl  _start
_start:
        la      t0, stacks_given
        lw      t1, 0(t0)               # for how many cores there are stacks
        bgeu    a0, t1, no_stack
        lw      t2, 4(t0)               # a stack's size
        la      sp, ram                 # core c has the bytes from ram + c * size on
        addi    t1, a0, 1
        mul     t1, t1, t2
        add     sp, sp, t1
        lw      t1, 8(t0)               # of that, thread-local data
        sub     sp, sp, t1
        mv      tp, sp
        lw      t1, 12(t0)              # the part with a value at the start
        la      t2, tls_source
        mv      t3, tp
        add     t1, t1, t2
copy:   bgeu    t2, t1, copied
        lbu     t4, 0(t2)
        sb      t4, 0(t3)
        addi    t2, t2, 1
        addi    t3, t3, 1
        j       copy
copied: andi    sp, sp, -16
        call    main
        li      a7, 93
        ecall
no_stack:
        ebreak                          # more cores run than CORES said

        .section .rodata.start, "a"
        .balign 4
stacks_given:
        .word   stacks, stack_size, tls_size, tls_data_size
