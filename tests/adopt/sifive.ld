/* Where flash and RAM are in SiFive's FE310. */
ENTRY(_start)
SECTIONS
{
    . = 0x20400000;
    .text : { *(.text.start) *(.text .text.*) *(.rodata .rodata.* .srodata .srodata.*) }
    .bss 0x80000000 : { *(.sbss .sbss.* .bss .bss.* COMMON) }
    __stack = 0x80004000;
}
