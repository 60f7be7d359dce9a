/* SPDX-License-Identifier: Apache-2.0 */
/* Where the sections go, for all boards: m4.ld, m0.ld and riscv32.ld name the memories. */
ENTRY(board_run)
SECTIONS
{
    .text : { KEEP(*(.vectors)) *(.text*) *(.rodata*) . = ALIGN(4); } >CODE
    .ARM.exidx : { *(.ARM.exidx*) } >CODE
    .data : { . = ALIGN(4); begin_of_data = .; *(.data*) *(.sdata*) . = ALIGN(4); end_of_data = .; } >DATA AT>CODE
    image_of_data = LOADADDR(.data);
    .bss (NOLOAD) : { . = ALIGN(4); begin_of_bss = .; *(.bss*) *(.sbss*) *(COMMON) . = ALIGN(8); end_of_bss = .; } >DATA
    board_stack_floor = end_of_bss;
    top_of_stack = ORIGIN(DATA) + LENGTH(DATA);
    /DISCARD/ : { *(.comment) *(.note*) }
}
