/* The board's memory begins at 0x80000000, and every hart begins at its first byte. The programs of
 * rings.S get a page of their own, so that user mode can be allowed to execute them and nothing else. */
ENTRY(_start)
SECTIONS
{
    . = 0x80000000;
    .text : { *(.start) *(.text) }
    .programs : ALIGN(4096) { *(.text.*_sender) *(.text.*_receiver) }
    .rodata : ALIGN(4096) { *(.rodata*) *(.srodata*) }
    .data : { *(.data*) *(.sdata*) }
    .bss : { *(.bss*) *(.sbss*) *(COMMON) }
    /DISCARD/ : { *(.comment) *(.note*) *(.eh_frame*) }
}
