/* Code with constants, and data with the zeros behind it. The stack is none of the image's. */
ENTRY(start)

PHDRS
{
    text PT_LOAD FLAGS(5);
    data PT_LOAD FLAGS(6);
}

SECTIONS
{
    . = 0x80000000;
    .text : { *start*(.text) *(.text .text.*) *(.rodata .rodata.*) *(.srodata .srodata.*) } :text
    . = 0x80010000;
    .data : { *(.data .data.*) *(.sdata .sdata.*) } :data
    .bss : { *(.bss .bss.*) *(.sbss .sbss.*) *(COMMON) } :data
    /DISCARD/ : { *(.comment) *(.note*) *(.riscv.attributes) *(.eh_frame) }
}
