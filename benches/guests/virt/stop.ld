/* Behind the pages that a guest may have. */
ENTRY(begin)

SECTIONS
{
    . = 0x80100000;
    .text : { *(.text) }

    /DISCARD/ : { *(.comment) *(.note.*) *(.riscv.attributes) *(.eh_frame*) }
}
