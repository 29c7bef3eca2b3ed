# Message passing in assembly, with functions that hart 0 calls: may the flag be seen and the data not?
        .data
data:   .word   0
flag:   .byte   0

        .text
        .globl  P0, P1
P0:
        addi    sp, sp, -16
        sw      ra, 12(sp)
        li      a1, 7
        la      a0, data
        call    put
        li      a1, 1
        la      a0, flag
        call    put_byte
        lw      ra, 12(sp)
        addi    sp, sp, 16
        ret

P1:
        lui     t0, %hi(flag)
        lbu     t1, %lo(flag)(t0)
        beqz    t1, again
        lw      a0, data
        ret
again:
        li      a0, -1
        ret

put:
        sw      a1, 0(a0)
        ret
put_byte:
        fence   rw, w
        sb      a1, 0(a0)
        jr      ra

# exists (1:a0=0)
