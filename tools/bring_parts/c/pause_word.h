/* `pause` for an assembler that doesn't know it: the fence whose word it is. Of C and of assembly. */
#ifdef __ASSEMBLER__
.macro pause
  .insn i 0x0f, 0, x0, x0, 0x010
.endm
#else
__asm__(".macro pause\n\t.insn i 0x0f, 0, x0, x0, 0x010\n\t.endm");
#endif
