/* Memory as the simulator's defaults have it: 65,536 bytes from 0x80000000 on. Code comes first, data on the next line. */

ENTRY(_start)

PHDRS
{
    code PT_LOAD FLAGS(5);
    data PT_LOAD FLAGS(6);
}

SECTIONS
{
    . = 0x80000000;
    .text : { *(.text.start) *(.text .text.*) *(.rodata .rodata.* .srodata .srodata.*) } :code
    . = ALIGN(32);
    .data : { *(.data .data.* .sdata .sdata.*) *(.bss .bss.* .sbss .sbss.*) } :data
    ram_end = 0x80010000;
    /DISCARD/ : { *(.comment) *(.riscv.attributes) *(.note .note.*) *(.eh_frame) }
}
