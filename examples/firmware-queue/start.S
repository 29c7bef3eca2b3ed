# Where both harts begin: each gets a stack of its own and calls begin(hart). Memory is zero at power-on, so the
# queues are empty; a board whose memory isn't has one hart clear it and execute `fence rw,rw` before others go on.
    .section .start, "ax"
    .globl _start
_start:
    csrr  a0, mhartid
    la    t0, trap
    csrw  mtvec, t0
    la    sp, stacks
    addi  t0, a0, 1
    slli  t0, t0, 12
    add   sp, sp, t0
    call  begin
1:  j     1b                        # hart 1 is done

    .balign 4
trap:
    csrr  a0, mcause
    call  trapped                   # doesn't return

    .section .bss
    .balign 16
stacks:
    .zero 2 << 12
