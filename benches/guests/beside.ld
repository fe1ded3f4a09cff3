/* Code, constants and data one behind the other, so that data stands on the page of the code; then a stack for each hart.
   HARTS and STACK are given on the command line. */
ENTRY(_start)

PHDRS
{
    code PT_LOAD FLAGS(7);
    data PT_LOAD FLAGS(6);
    stack PT_LOAD FLAGS(6);
}

SECTIONS
{
    . = 0x80000000;
    .text : { *(.text.start) *(.text .text.*) } :code
    .rodata : { *(.rodata .rodata.* .srodata .srodata.*) } :code

    .data : { *(.data .data.*) . = ALIGN(4); __global_pointer$ = . + 0x800; *(.sdata .sdata.*) } :data
    .bss (NOLOAD) : { *(.sbss .sbss.*) *(.bss .bss.* COMMON) } :data

    /* Stacks begin on pages of their own, so that harts do not take them from each other. */
    . = ALIGN(4096);
    stacks = .;
    .stacks (NOLOAD) : { . = . + HARTS * STACK; } :stack

    /DISCARD/ : { *(.comment) *(.note.*) *(.riscv.attributes) *(.eh_frame*) }
}

ASSERT(STACK % 4096 == 0, "a stack has whole pages")
ASSERT(. <= 0x80100000, "RAM has at most 256 pages")
