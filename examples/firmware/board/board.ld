/* A board with flash and RAM. What is initialised stands in flash (AT>flash), and the start file copies it to RAM. */
ENTRY(_start)

MEMORY
{
    flash (rx)  : ORIGIN = 0x20400000, LENGTH = 512K
    ram   (rwx) : ORIGIN = 0x80000000, LENGTH = 64K
}

SECTIONS
{
    .text : ALIGN(16) {
        KEEP(*(.text.start))
        *(.text .text.*)
    } >flash
    .rodata : ALIGN(16) { *(.rodata .rodata.* .srodata .srodata.*) } >flash
    .data : ALIGN(16) {
        __data_start = .;
        *(.data .data.*)
        __global_pointer$ = . + 0x800;
        *(.sdata .sdata.*)
        . = ALIGN(4);
        __data_end = .;
    } >ram AT>flash
    __data_source = LOADADDR(.data);
    .bss (NOLOAD) : ALIGN(16) {
        __bss_start = .;
        *(.sbss .sbss.* .bss .bss.* COMMON)
        . = ALIGN(16);
        __bss_end = .;
    } >ram
    __stack_top = ORIGIN(ram) + LENGTH(ram);

    /DISCARD/ : { *(.eh_frame .eh_frame.* .riscv.attributes .note .note.*) }
}
