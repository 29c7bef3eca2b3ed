// A sequence lock in assembly, with a writer of two words and a reader that tries once: may it read one new word and one old?
        .bss
        .balign 16
sequence: .space 4
words:  .space  8

        .text
        .globl  P0
P0:
        la      t0, sequence
        la      t1, words
        lw      t2, (t0)
        addi    t2, t2, 1
        sw      t2, (t0)
        fence   w, w
        li      t3, 1
        sw      t3, 0(t1)
        sw      t3, 4(t1)
        fence   w, w
        addi    t2, t2, 1
        sw      t2, (t0)
        ret

// -1 where the reader must try again, else what it read
        .globl  P1
P1:
        la      t0, sequence
        la      t1, words
        lw      t2, (t0)
        fence   r, r
        lw      t3, 0(t1)
        lw      t4, 4(t1)
        fence   r, r
        lw      t5, (t0)
        andi    t6, t2, 1
        bnez    t6, again
        bne     t2, t5, again
        slli    a0, t4, 1
        add     a0, a0, t3
        ret
again:  li      a0, -1
        ret

// exists (1:a0=1 \/ 1:a0=2)
