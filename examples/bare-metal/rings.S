# The programs of docs/channels.md for GNU as. Each is the whole program of a hart with Ztso.
# scripts/make-ring-assembly makes this file.
#ifndef __clang__  /* clang 14 knows no ztso; as without the preprocessor takes this line for a remark */
    .attribute arch, "rv32i2p1_ztso1p0"
#endif
    .option norvc

    .section .text.lamport_sender, "ax", @progbits
    .balign 4
    .globl lamport_sender
    .type lamport_sender, @function
lamport_sender:
.Llamport_sender_next:
    addi x17,x0,1                             # ask for the next word of the list:
    ecall                                     # x10 is the word and x11 is 1, or x11 is 0
    beq x11,x0,.Llamport_sender_done          # no word is left
    addi x6,x5,4                              # the head after this word: one slot on,
    bne x6,x9,.Llamport_sender_test           # and where that is past the last slot
    addi x6,x0,0                              # the first one
.Llamport_sender_test:
    lw x7,8(x8)                               # the tail
    beq x7,x6,.Llamport_sender_test           # as long as the head would meet it the ring is full
    add x28,x8,x5
    sw x10,16(x28)                            # the word into its slot,
    sw x6,0(x8)                               # then the head
    addi x5,x6,0
    jal x0,.Llamport_sender_next
.Llamport_sender_done:
    addi x6,x0,1
    sw x6,4(x8)                               # the closed mark
    addi x17,x0,93                            # and the end
    ecall
    .size lamport_sender, . - lamport_sender

    .section .text.lamport_receiver, "ax", @progbits
    .balign 4
    .globl lamport_receiver
    .type lamport_receiver, @function
lamport_receiver:
.Llamport_receiver_round:
    addi x8,x21,0                             # from the first block on
    addi x22,x0,0
.Llamport_receiver_visit:
    lw x5,12(x8)                              # a sender that is done is passed over
    bne x5,x0,.Llamport_receiver_step
    lw x30,4(x8)                              # the closed mark, read before the ring
    lw x6,0(x8)                               # the head
    lw x7,8(x8)                               # the tail
    beq x6,x7,.Llamport_receiver_empty        # nothing is there
    add x28,x8,x7
    lw x11,16(x28)                            # the word
    addi x7,x7,4                              # the tail after it, as the head above
    bne x7,x9,.Llamport_receiver_keep
    addi x7,x0,0
.Llamport_receiver_keep:
    sw x7,8(x8)
    addi x10,x22,0
    addi x17,x0,2                             # report the word
    ecall
    jal x0,.Llamport_receiver_step
.Llamport_receiver_empty:
    beq x30,x0,.Llamport_receiver_step        # an empty ring with no mark may fill again
    addi x5,x0,1                              # the mark was there before the ring was found empty:
    sw x5,12(x8)                              # all is taken
    addi x10,x22,0
    addi x17,x0,3                             # report the sender closed
    ecall
    addi x20,x20,-1                           # one sender fewer
    beq x20,x0,.Llamport_receiver_quit
.Llamport_receiver_step:
    add x8,x8,x18                             # the next block
    addi x22,x22,1
    bne x8,x19,.Llamport_receiver_visit
    jal x0,.Llamport_receiver_round
.Llamport_receiver_quit:
    addi x17,x0,93                            # the end
    ecall
    .size lamport_receiver, . - lamport_receiver

    .section .text.fastforward_sender, "ax", @progbits
    .balign 4
    .globl fastforward_sender
    .type fastforward_sender, @function
fastforward_sender:
.Lfastforward_sender_next:
    addi x17,x0,1                             # ask for the next word:
    ecall                                     # x10 is the word and x11 is 1, or x11 is 0
    beq x11,x0,.Lfastforward_sender_done      # no word is left
    add x28,x8,x5
.Lfastforward_sender_test:
    lw x7,16(x28)                             # its slot
    bne x7,x0,.Lfastforward_sender_test       # as long as a word is there the slot is not free
    sw x10,16(x28)                            # the word into its slot
    addi x5,x5,4                              # one slot on,
    bne x5,x9,.Lfastforward_sender_next       # and where that is past the last slot
    addi x5,x0,0                              # the first one
    jal x0,.Lfastforward_sender_next
.Lfastforward_sender_done:
    addi x6,x0,1
    sw x6,4(x8)                               # the closed mark
    addi x17,x0,93                            # and the end
    ecall
    .size fastforward_sender, . - fastforward_sender

    .section .text.fastforward_receiver, "ax", @progbits
    .balign 4
    .globl fastforward_receiver
    .type fastforward_receiver, @function
fastforward_receiver:
.Lfastforward_receiver_round:
    addi x8,x21,0                             # from the first block on
    addi x22,x0,0
.Lfastforward_receiver_visit:
    lw x5,12(x8)                              # a sender that is done is passed over
    bne x5,x0,.Lfastforward_receiver_step
    lw x30,4(x8)                              # the closed mark, read before the ring
    lw x7,8(x8)                               # the tail
    add x28,x8,x7
    lw x11,16(x28)                            # the slot
    beq x11,x0,.Lfastforward_receiver_empty   # nothing is there
    sw x0,16(x28)                             # the word is read, so its slot is free
    addi x7,x7,4                              # the tail after it, as the head above
    bne x7,x9,.Lfastforward_receiver_keep
    addi x7,x0,0
.Lfastforward_receiver_keep:
    sw x7,8(x8)
    addi x10,x22,0
    addi x17,x0,2                             # report the word
    ecall
    jal x0,.Lfastforward_receiver_step
.Lfastforward_receiver_empty:
    beq x30,x0,.Lfastforward_receiver_step    # an empty ring with no mark may fill again
    addi x5,x0,1                              # the mark was there before the ring was found empty:
    sw x5,12(x8)                              # all is taken
    addi x10,x22,0
    addi x17,x0,3                             # report the sender closed
    ecall
    addi x20,x20,-1                           # one sender fewer
    beq x20,x0,.Lfastforward_receiver_quit
.Lfastforward_receiver_step:
    add x8,x8,x18                             # the next block
    addi x22,x22,1
    bne x8,x19,.Lfastforward_receiver_visit
    jal x0,.Lfastforward_receiver_round
.Lfastforward_receiver_quit:
    addi x17,x0,93                            # the end
    ecall
    .size fastforward_receiver, . - fastforward_receiver

    .section .text.cached_sender, "ax", @progbits
    .balign 4
    .globl cached_sender
    .type cached_sender, @function
cached_sender:
.Lcached_sender_next:
    addi x17,x0,1                             # ask for the next word:
    ecall                                     # x10 is the word and x11 is 1, or x11 is 0
    beq x11,x0,.Lcached_sender_done           # no word is left
    addi x6,x5,4                              # the next head
    bne x6,x9,.Lcached_sender_test
    addi x6,x0,0
.Lcached_sender_test:
    bne x7,x6,.Lcached_sender_store           # by the tail that it read last the slot is free
.Lcached_sender_again:
    lw x7,8(x8)                               # the tail
    beq x7,x6,.Lcached_sender_again           # as long as the head would meet it the ring is full
.Lcached_sender_store:
    add x28,x8,x5
    sw x10,16(x28)                            # the word into its slot,
    sw x6,0(x8)                               # then the head
    addi x5,x6,0
    jal x0,.Lcached_sender_next
.Lcached_sender_done:
    addi x6,x0,1
    sw x6,4(x8)                               # the closed mark
    addi x17,x0,93                            # and the end
    ecall
    .size cached_sender, . - cached_sender
