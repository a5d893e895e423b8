/* A program that is assembled from one file: its first instruction at 0x10000, its data, where it has some, at 0x11000. */
ENTRY(main)

PHDRS
{
    code PT_LOAD FLAGS(5);
    data PT_LOAD FLAGS(6);
}

SECTIONS
{
    .text 0x10000 : { *(.text) } :code
    .data 0x11000 : { *(.data) } :data
    .bss : { *(.bss) } :data
    /DISCARD/ : { *(.riscv.attributes) }
}
