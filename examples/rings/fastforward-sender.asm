# The sender of docs/channels.md's ring fastforward. scripts/make-ring-assembly makes this file.
next:  addi x17,x0,1       # ask for the next word:
       ecall               # x10 is the word and x11 is 1, or x11 is 0
       beq x11,x0,done     # no word is left
       add x28,x8,x5
test:  lw x7,16(x28)       # its slot
       bne x7,x0,test      # as long as a word is there the slot is not free
       sw x10,16(x28)      # the word into its slot
       addi x5,x5,4        # one slot on,
       bne x5,x9,next      # and where that is past the last slot
       addi x5,x0,0        # the first one
       jal x0,next
done:  addi x6,x0,1
       sw x6,4(x8)         # the closed mark
       addi x17,x0,93      # and the end
       ecall
