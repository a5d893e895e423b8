/* A static program for replaycheck, and the same file for qemu-riscv32: a segment of code and constants, and one of data.
   replaycheck loads a segment to its virtual address, so each byte stands where the program looks for it, and nothing is copied
   from flash. A program may not load anything into the heap region, 0x40000000 to 0x5fffffff, or the stack region, 0x7f000000 to
   0x7fffffff. The files of the link line stand in memory in its order. */
ENTRY(_start)

PHDRS
{
    code PT_LOAD FILEHDR PHDRS FLAGS(5);
    data PT_LOAD FLAGS(6);
    tls PT_TLS FLAGS(4);
}

SECTIONS
{
    . = 0x10000 + SIZEOF_HEADERS;
    .text : ALIGN(16) {
        KEEP(*(.text.start))
        *(.text .text.*)
        KEEP(*(.init .fini))
    } :code
    .rodata : ALIGN(16) {
        *(.rodata .rodata.* .srodata .srodata.*)
        . = ALIGN(4);
        __init_array_start = .;
        KEEP(*(SORT_BY_INIT_PRIORITY(.init_array.*)))
        KEEP(*(.init_array))
        __init_array_end = .;
        __fini_array_start = .;
        KEEP(*(.fini_array .fini_array.*))
        __fini_array_end = .;
    } :code

    . = ALIGN(0x10000);                     /* the same place for data whatever the heap's code takes */
    .data : ALIGN(16) {
        __data_start = .;
        *(.data .data.*)
        . = ALIGN(8);
        __global_pointer$ = . + 0x800;
        *(.sdata .sdata.*)
    } :data
    .tdata : ALIGN(8) { __thread_data = .; *(.tdata .tdata.*) } :data :tls
    /* .tbss is aligned as .tdata is, which may have nothing. It takes no addresses: those that it and its alignment need come next. */
    .tbss (NOLOAD) : ALIGN(8) { *(.tbss .tbss.*) } :data :tls
    .tbss_place (NOLOAD) : { . = . + (SIZEOF(.tbss) ? SIZEOF(.tbss) + 7 : 0); } :data
    .bss (NOLOAD) : ALIGN(16) {
        __bss_start = .;
        *(.sbss .sbss.* .bss .bss.* COMMON)
        . = ALIGN(16);
        __bss_end = .;
    } :data
    .heap (NOLOAD) : ALIGN(16) {            /* for picolibc's own malloc: -Wl,--defsym=__heap_size=16384 */
        __heap_start = .;
        . = . + (DEFINED(__heap_size) ? __heap_size : 0);
        __heap_end = .;
    } :data

    /DISCARD/ : { *(.eh_frame .eh_frame.* .riscv.attributes .note .note.*) }
}
