/* An image of three segments: code with the gates first, read-only data, and data with zeros behind it. The linker is
 * told TEXT, and may be told RODATA and DATA; without them a segment follows the one before it. */
ENTRY(start)
/* A module without harts has no main. */
PROVIDE(main = mondrix_return);

PHDRS
{
    text PT_LOAD FLAGS(5);
    rodata PT_LOAD FLAGS(4);
    data PT_LOAD FLAGS(6);
    tls PT_TLS FLAGS(4);
}

SECTIONS
{
    . = TEXT;
    __module_code = .;
    .gates : { KEEP(*(.gates)) } :text
    .text : { KEEP(*(.text.start)) *(.text .text.*) } :text
    __module_code_end = .;

    . = DEFINED(RODATA) ? RODATA : ALIGN(4);
    __module_constants = .;
    .rodata : { *(.rodata .rodata.* .srodata .srodata.*) } :rodata
    .arrays : ALIGN(4) {
        __preinit_array_start = .;
        KEEP(*(.preinit_array))
        __preinit_array_end = .;
        __init_array_start = .;
        KEEP(*(SORT_BY_INIT_PRIORITY(.init_array.*) .init_array))
        __init_array_end = .;
        __fini_array_start = .;
        KEEP(*(SORT_BY_INIT_PRIORITY(.fini_array.*) .fini_array))
        __fini_array_end = .;
    } :rodata
    __module_constants_end = .;

    . = DEFINED(DATA) ? DATA : ALIGN(4);
    __module_data = .;
    .data : ALIGN(4) { *(.data .data.* .sdata .sdata.*) } :data
    .tdata : ALIGN(4) { __tls_base = .; *(.tdata .tdata.*) } :data :tls
    .tbss : { *(.tbss .tbss.* .tcommon) } :data :tls
    . = . + SIZEOF(.tbss);
    .bss : ALIGN(4) {
        *(.bss .bss.* .sbss .sbss.* COMMON)
        . = ALIGN(4);
        /* The state of begin.c, where there is a constructor or a destructor. */
        mondrix_begun = .;
        . = . + (SIZEOF(.arrays) > 0 ? 16 : 0);
    } :data
    __module_data_end = .;

    /DISCARD/ : { *(.comment .note* .riscv.attributes .eh_frame .eh_frame.*) }
}
