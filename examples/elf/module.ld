/* One segment of code, one of data with the zeros behind it, and a header that is not loaded. */
ENTRY(start)

PHDRS
{
    text PT_LOAD FLAGS(5);
    stack PT_GNU_STACK FLAGS(6);
    data PT_LOAD FLAGS(6);
}

SECTIONS
{
    . = 0x80000000;
    .text : { *(.text) } :text
    . = 0x80000100;
    .data : { *(.data) } :data
    .bss : { *(.bss) } :data
    /DISCARD/ : { *(.comment) *(.note*) *(.riscv.attributes) }
}
