/* Code from 0x10000 on, then data; each hart's stack lies above, and is not in the image. */
OUTPUT_ARCH(riscv)
ENTRY(_start)

PHDRS
{
    code PT_LOAD FLAGS(5);
    data PT_LOAD FLAGS(6);
}

SECTIONS
{
    . = 0x10000;
    .text : { *(.text.start) *(.text .text.*) } :code
    .rodata : { *(.rodata .rodata.* .srodata .srodata.*) } :code
    . = ALIGN(64);
    .data : { *(.data .data.*) } :data
    .sdata : { __global_pointer$ = . + 0x800; *(.sdata .sdata.*) } :data
    .sbss : { *(.sbss .sbss.*) } :data
    .bss : { *(.bss .bss.* COMMON) } :data
    /DISCARD/ : { *(.comment) *(.note .note.*) *(.eh_frame) *(.riscv.attributes) }
}
