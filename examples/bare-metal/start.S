# Where each hart begins, how it enters a channel's program, and how a trap leaves it.
    .option norelax

    # sp is the end of this hart's stack, and a0 the hart's number
    .macro own_stack
    csrr  a0, mhartid
    la    sp, stacks
    addi  t0, a0, 1
    slli  t0, t0, STACK_SHIFT
    add   sp, sp, t0
    .endm

    .section .start, "ax"
    .globl _start
_start:
    own_stack
    la    t0, trap
    csrw  mtvec, t0
    call  begin                     # doesn't return

# void enter(pc, const uint32_t registers[32]): goes to user mode, with these registers.
    .globl enter
enter:
    csrw  mepc, a0
    mv    x31, a1
    own_stack
    csrw  mscratch, sp              # a handler that didn't return has left the program's sp here
    .irp  n, 1,2,3,4,5,6,7,8,9,10,11,12,13,14,15,16,17,18,19,20,21,22,23,24,25,26,27,28,29,30,31
    lw    x\n, 4*\n(x31)            # x31 itself comes last
    .endr
    mret

# A trap keeps the registers that C code may change (struct frame) on this hart's stack.
    .balign 4
trap:
    csrrw sp, mscratch, sp
    addi  sp, sp, -64
    .equ  at, 0
    .irp  n, 1,5,6,7,10,11,12,13,14,15,16,17,28,29,30,31
    sw    x\n, at(sp)
    .equ  at, at + 4
    .endr
    mv    a0, sp
    call  on_trap
    .equ  at, 0
    .irp  n, 1,5,6,7,10,11,12,13,14,15,16,17,28,29,30,31
    lw    x\n, at(sp)
    .equ  at, at + 4
    .endr
    addi  sp, sp, 64
    csrrw sp, mscratch, sp
    mret

    .section .bss
    .balign 16
stacks:
    .zero HARTS << STACK_SHIFT
