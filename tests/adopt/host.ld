/* Where RAM is in QEMU's virt. */
ENTRY(_start)
SECTIONS
{
    . = 0x80000000;
    .text : { *(.text.start) *(.text .text.*) *(.rodata .rodata.* .srodata .srodata.*) }
    .data : ALIGN(4096) { *(.data .data.* .sdata .sdata.*) }
    .bss : ALIGN(16) { *(.sbss .sbss.* .bss .bss.* COMMON) }
    __stack = 0x80100000;
}
