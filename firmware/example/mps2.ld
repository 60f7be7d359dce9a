/* SPDX-License-Identifier: Apache-2.0 */
/* The memories of the board mps2-an386, and where the sections go. */
MEMORY
{
    CODE : ORIGIN = 0x00000000, LENGTH = 4M
    DATA : ORIGIN = 0x20000000, LENGTH = 4M
}
ENTRY(reset)
SECTIONS
{
    .text : { KEEP(*(.vectors)) *(.text*) *(.rodata*) . = ALIGN(4); } >CODE
    .ARM.exidx : { *(.ARM.exidx*) } >CODE
    .data : { . = ALIGN(4); begin_of_data = .; *(.data*) . = ALIGN(4); end_of_data = .; } >DATA AT>CODE
    image_of_data = LOADADDR(.data);
    .bss (NOLOAD) : { . = ALIGN(4); begin_of_bss = .; *(.bss*) *(COMMON) . = ALIGN(8); end_of_bss = .; } >DATA
    top_of_stack = ORIGIN(DATA) + LENGTH(DATA);
    /DISCARD/ : { *(.comment) *(.note*) }
}
