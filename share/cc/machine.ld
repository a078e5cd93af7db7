/* Memory of ram_size bytes from 0x80000000 on: the stacks of all cores, the code, and data on the next line. */

ENTRY(_start)

PHDRS
{
    stack PT_LOAD FLAGS(6);
    code PT_LOAD FLAGS(5);
    data PT_LOAD FLAGS(6);
    tls PT_TLS;
}

ram = 0x80000000;

SECTIONS
{
    .stacks ram (NOLOAD) : { . += stacks * stack_size; } :stack
    .text ALIGN(32) : { KEEP(*(.text.start)) *(.text .text.*) *(.rodata .rodata.* .srodata .srodata.*) } :code
    .init_array : ALIGN(4) {
        __init_array_start = .;
        KEEP(*(SORT_BY_INIT_PRIORITY(.init_array.*))) KEEP(*(.preinit_array)) KEEP(*(.init_array))
        __init_array_end = .;
    } :code
    . = ALIGN(32);
    .tdata : { *(.tdata .tdata.*) } :data :tls
    .tbss (NOLOAD) : { *(.tbss .tbss.*) *(.tcommon) } :data :tls
    .data ALIGN(32) : { *(.data .data.* .sdata .sdata.*) } :data
    .bss (NOLOAD) : { *(.bss .bss.* .sbss .sbss.* COMMON) } :data
    tls_source = ADDR(.tdata);
    tls_data_size = SIZEOF(.tdata);
    tls_size = ALIGN(SIZEOF(.tdata) + SIZEOF(.tbss), 16);
    . = ALIGN(32);
    __heap_start = .;
    __heap_end = ram + ram_size;
    /DISCARD/ : { *(.note .note.*) *(.eh_frame) }
}

ASSERT(__heap_start <= __heap_end, "the program doesn't fit into RAM: set RAM to more bytes, or CORES or STACK to fewer")
