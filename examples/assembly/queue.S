// A queue for one producer and one consumer in assembly, with calls: one hart pushes 5 and 7, the other pops twice. May a pop
// give a word out of order, or one that was never pushed?
#define HEAD  0
#define TAIL  64
#define SLOTS 128

        .bss
        .balign 64
queue:  .space  SLOTS + 8

        .text
// a0: the word; returns 1, or 0 if the queue is full
push:
        la      t0, queue
        lw      t1, TAIL(t0)
        lw      t2, HEAD(t0)
        sub     t2, t1, t2
        li      t3, 2
        beq     t2, t3, 1f
        andi    t2, t1, 1
        slli    t2, t2, 2
        add     t2, t0, t2
        fence   r, w
        sw      a0, SLOTS(t2)
        addi    t1, t1, 1
        fence   w, w
        sw      t1, TAIL(t0)
        li      a0, 1
        ret
1:      li      a0, 0
        ret

// returns the word, or 0 if the queue is empty
pop:
        la      t0, queue
        lw      t1, HEAD(t0)
        lw      t2, TAIL(t0)
        li      a0, 0
        beq     t1, t2, 1f
        andi    t2, t1, 1
        slli    t2, t2, 2
        add     t2, t0, t2
        fence   r, r
        lw      a0, SLOTS(t2)
        addi    t1, t1, 1
        fence   r, w
        sw      t1, HEAD(t0)
1:      ret

        .globl  P0
P0:
        addi    sp, sp, -16
        sw      ra, 12(sp)
        sw      s0, 8(sp)
        li      a0, 5
        call    push
        mv      s0, a0
        li      a0, 7
        call    push
        add     a0, s0, a0
        lw      s0, 8(sp)
        lw      ra, 12(sp)
        addi    sp, sp, 16
        ret

        .globl  P1
P1:
        addi    sp, sp, -16
        sw      ra, 12(sp)
        sw      s0, 8(sp)
        call    pop
        mv      s0, a0
        call    pop
        beqz    a0, 1f
        slli    s0, s0, 4
        add     s0, s0, a0
1:      mv      a0, s0
        lw      s0, 8(sp)
        lw      ra, 12(sp)
        addi    sp, sp, 16
        ret

// forall (0:a0=2 /\ (1:a0=0 \/ 1:a0=5 \/ 1:a0=0x57))
