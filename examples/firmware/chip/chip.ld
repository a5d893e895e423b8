/* A chip that runs code from flash, which it sees at 0x42000000, and has its RAM at 0x3fc80000. Its boot ROM loads RAM too. The stack is at
   the end of RAM, inside of its segment. */
ENTRY(_start)

MEMORY
{
    flash (rx)  : ORIGIN = 0x42000000, LENGTH = 4M
    ram   (rwx) : ORIGIN = 0x3fc80000, LENGTH = 128K
}

PHDRS
{
    code PT_LOAD FLAGS(5);
    data PT_LOAD FLAGS(6);
}

SECTIONS
{
    .text : ALIGN(16) {
        KEEP(*(.text.start))
        *(.text .text.*)
    } >flash :code
    .rodata : ALIGN(16) { *(.rodata .rodata.* .srodata .srodata.*) } >flash :code
    .data : ALIGN(16) {
        *(.data .data.*)
        __global_pointer$ = . + 0x800;
        *(.sdata .sdata.*)
        . = ALIGN(4);
    } >ram :data
    .bss (NOLOAD) : ALIGN(16) {
        __bss_start = .;
        *(.sbss .sbss.* .bss .bss.* COMMON)
        . = ALIGN(16);
        __bss_end = .;
    } >ram :data
    .stack (NOLOAD) : ALIGN(16) {
        . = ORIGIN(ram) + LENGTH(ram) - ABSOLUTE(.);
        __stack_top = .;
    } >ram :data

    /DISCARD/ : { *(.eh_frame .eh_frame.* .riscv.attributes .note .note.*) }
}
