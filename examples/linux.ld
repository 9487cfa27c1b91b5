/* Lays out a static program for Linux: a segment of code and constants from 0x10000 on, and one of data from the next page
   on. It is for compilers whose own script may put code and data into one segment, as riscv64-unknown-elf-gcc's does.

   A heap stands behind the data, which begins as zeros: --defsym=__heap_size=N gives it N bytes. */
ENTRY(_start)
PHDRS
{
    text PT_LOAD FILEHDR PHDRS FLAGS(5);
    data PT_LOAD FLAGS(6);
    thread PT_TLS FLAGS(4);
}
SECTIONS
{
    . = 0x10000 + SIZEOF_HEADERS;
    .text : { *(.text .text.*) *(.rodata .rodata.* .srodata .srodata.*) } :text

    . = ALIGN(0x1000);
    .tdata : { *(.tdata .tdata.*) *(.tbss .tbss.*) . = ALIGN(16); } :data :thread
    __tls_base = ADDR(.tdata);
    .data : { *(.data .data.*) . = ALIGN(8); __global_pointer$ = . + 0x800; *(.sdata .sdata.*) } :data
    .bss : { *(.sbss .sbss.*) *(.bss .bss.*) *(COMMON) . = ALIGN(16); } :data
    .heap (NOLOAD) : { __heap_start = .; . += DEFINED(__heap_size) ? __heap_size : 0; __heap_end = .; } :data

    /DISCARD/ : { *(.eh_frame .eh_frame_hdr) *(.note .note.*) *(.comment) }
}
