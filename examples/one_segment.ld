/* One program header, and one segment that can be read and executed: code and constants.
   The linker refuses a program that uses data which could be written. */
ENTRY(_start)
PHDRS
{
    text PT_LOAD FILEHDR PHDRS FLAGS(5);
}
SECTIONS
{
    . = 0x10000 + SIZEOF_HEADERS;
    .text : { *(.text .text.*) *(.rodata .rodata.* .srodata .srodata.*) } :text
    /DISCARD/ : { *(.data .data.* .sdata .sdata.* .bss .bss.* .sbss .sbss.* COMMON)
                  *(.eh_frame) *(.riscv.attributes) *(.note*) *(.comment) }
}
