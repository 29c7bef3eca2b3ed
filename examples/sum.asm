# Adds 10, 9, .. 1 and stores the sum, which is 55, at byte address 0.
        li   a0, 10
        li   a1, 0
loop:   add  a1, a1, a0
        addi a0, a0, -1
        bnez a0, loop
        sw   a1, (zero)
