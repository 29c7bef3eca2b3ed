# The sender of docs/channels.md's ring cached. scripts/make-ring-assembly makes this file.
next:  addi x17,x0,1       # ask for the next word:
       ecall               # x10 is the word and x11 is 1, or x11 is 0
       beq x11,x0,done     # no word is left
       addi x6,x5,4        # the next head
       bne x6,x9,test
       addi x6,x0,0
test:  bne x7,x6,store     # by the tail that it read last the slot is free
again: lw x7,8(x8)         # the tail
       beq x7,x6,again     # as long as the head would meet it the ring is full
store: add x28,x8,x5
       sw x10,16(x28)      # the word into its slot,
       sw x6,0(x8)         # then the head
       addi x5,x6,0
       jal x0,next
done:  addi x6,x0,1
       sw x6,4(x8)         # the closed mark
       addi x17,x0,93      # and the end
       ecall
