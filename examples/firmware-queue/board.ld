/* The board's memory begins at 0x80000000, and every hart begins at its first byte. */
ENTRY(_start)
SECTIONS
{
    . = 0x80000000;
    .text : { *(.start) *(.text .text.*) }
    .rodata : { *(.rodata*) *(.srodata*) }
    .data : { *(.data*) *(.sdata*) }
    .bss : { *(.bss*) *(.sbss*) *(COMMON) }
    /DISCARD/ : { *(.comment) *(.note*) *(.eh_frame*) }
}
