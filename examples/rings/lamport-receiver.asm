# The receiver of docs/channels.md's ring lamport. scripts/make-ring-assembly makes this file.
round: addi x8,x21,0       # from the first block on
       addi x22,x0,0
visit: lw x5,12(x8)        # a sender that is done is passed over
       bne x5,x0,step
       lw x30,4(x8)        # the closed mark, read before the ring
       lw x6,0(x8)         # the head
       lw x7,8(x8)         # the tail
       beq x6,x7,empty     # nothing is there
       add x28,x8,x7
       lw x11,16(x28)      # the word
       addi x7,x7,4        # the tail after it, as the head above
       bne x7,x9,keep
       addi x7,x0,0
keep:  sw x7,8(x8)
       addi x10,x22,0
       addi x17,x0,2       # report the word
       ecall
       jal x0,step
empty: beq x30,x0,step     # an empty ring with no mark may fill again
       addi x5,x0,1        # the mark was there before the ring was found empty:
       sw x5,12(x8)        # all is taken
       addi x10,x22,0
       addi x17,x0,3       # report the sender closed
       ecall
       addi x20,x20,-1     # one sender fewer
       beq x20,x0,quit
step:  add x8,x8,x18       # the next block
       addi x22,x22,1
       bne x8,x19,visit
       jal x0,round
quit:  addi x17,x0,93      # the end
       ecall
