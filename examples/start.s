# Where every core begins: a stack of 4096 bytes at the end of RAM for each core, then main(core, cores), and a halt with
# what it returns. A core begins with its number in a0 and the number of cores in a1; all other registers are zero.

        .section .text.start
        .globl  _start
_start:
        lui     sp, %hi(ram_end)
        addi    sp, sp, %lo(ram_end)
        slli    t0, a0, 12
        sub     sp, sp, t0
        call    main
        li      a7, 93
        ecall
