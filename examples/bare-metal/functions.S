# The functions of docs/functions.md for GNU as, for code of harts with Ztso that keeps what that page asks.
# scripts/make-ring-assembly makes this file.
#ifndef __clang__  /* clang 14 knows no ztso; as without the preprocessor takes this line for a remark */
    .attribute arch, "rv32i2p1_ztso1p0"
#endif
    .option norvc

    .section .text.lamport_try_send, "ax", @progbits
    .balign 4
    .globl lamport_try_send
    .type lamport_try_send, @function
lamport_try_send:
    lw x5,0(x10)                              # its own head, maybe of its own pending store
    lw x6,64(x10)                             # the tail
    addi x7,x5,4                              # the head after this word: one slot on,
    bne x7,x12,.Llamport_try_send_test        # and if that is past the last slot
    addi x7,x0,0                              # the first one
.Llamport_try_send_test:
    beq x6,x7,.Llamport_try_send_full         # the head would meet the tail
    add x5,x10,x5
    sw x11,128(x5)                            # the word into its slot,
    sw x7,0(x10)                              # then the head
    addi x10,x0,1
    jalr x0,0(x1)
.Llamport_try_send_full:
    addi x10,x0,0
    jalr x0,0(x1)
    .size lamport_try_send, . - lamport_try_send

    .section .text.lamport_try_receive, "ax", @progbits
    .balign 4
    .globl lamport_try_receive
    .type lamport_try_receive, @function
lamport_try_receive:
    lw x5,64(x10)                             # its own tail, likewise
    lw x6,0(x10)                              # the head
    beq x5,x6,.Llamport_try_receive_empty     # nothing is there
    add x7,x10,x5
    lw x11,128(x7)                            # the word,
    addi x5,x5,4
    bne x5,x12,.Llamport_try_receive_keep
    addi x5,x0,0
.Llamport_try_receive_keep:
    sw x5,64(x10)                             # then the tail: the slot is free
    addi x10,x0,1
    jalr x0,0(x1)
.Llamport_try_receive_empty:
    addi x10,x0,0
    jalr x0,0(x1)
    .size lamport_try_receive, . - lamport_try_receive

    .section .text.cached_try_send, "ax", @progbits
    .balign 4
    .globl cached_try_send
    .type cached_try_send, @function
cached_try_send:
    lw x5,0(x10)                              # its own head
    lw x6,4(x10)                              # its copy of the tail
    addi x7,x5,4                              # the next head
    bne x7,x12,.Lcached_try_send_test
    addi x7,x0,0
.Lcached_try_send_test:
    beq x6,x7,.Lcached_try_send_look          # by the copy the head would meet the tail
.Lcached_try_send_store:
    add x5,x10,x5
    sw x11,128(x5)                            # the word into its slot,
    sw x7,0(x10)                              # then the head
    addi x10,x0,1
    jalr x0,0(x1)
.Lcached_try_send_full:
    addi x10,x0,0
    jalr x0,0(x1)
.Lcached_try_send_look:
    lw x6,64(x10)                             # the tail itself
    beq x6,x7,.Lcached_try_send_full          # the head would meet it
    sw x6,4(x10)                              # the new copy, before the word
    jal x0,.Lcached_try_send_store
    .size cached_try_send, . - cached_try_send

    .section .text.fastforward_try_send, "ax", @progbits
    .balign 4
    .globl fastforward_try_send
    .type fastforward_try_send, @function
fastforward_try_send:
    lw x5,0(x10)                              # its own head
    add x7,x10,x5
    lw x6,128(x7)                             # the slot there
    bne x6,x0,.Lfastforward_try_send_full     # a word is in it still
    addi x5,x5,4                              # the next head
    bne x5,x12,.Lfastforward_try_send_keep
    addi x5,x0,0
.Lfastforward_try_send_keep:
    sw x11,128(x7)                            # the word into its slot,
    sw x5,0(x10)                              # then the head
    addi x10,x0,1
    jalr x0,0(x1)
.Lfastforward_try_send_full:
    addi x10,x0,0
    jalr x0,0(x1)
    .size fastforward_try_send, . - fastforward_try_send

    .section .text.fastforward_try_receive, "ax", @progbits
    .balign 4
    .globl fastforward_try_receive
    .type fastforward_try_receive, @function
fastforward_try_receive:
    lw x5,64(x10)                             # its own tail
    add x7,x10,x5
    lw x11,128(x7)                            # the word of the slot there
    beq x11,x0,.Lfastforward_try_receive_empty # nothing is there
    addi x5,x5,4
    bne x5,x12,.Lfastforward_try_receive_keep
    addi x5,x0,0
.Lfastforward_try_receive_keep:
    sw x0,128(x7)                             # the slot is free,
    sw x5,64(x10)                             # then the tail
    addi x10,x0,1
    jalr x0,0(x1)
.Lfastforward_try_receive_empty:
    addi x10,x0,0
    jalr x0,0(x1)
    .size fastforward_try_receive, . - fastforward_try_receive
