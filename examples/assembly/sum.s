# The sum of the numbers 1 to 10, in x5.
        addi x5, x0, 0
        addi x6, x0, 10
again:  add x5, x5, x6
        addi x6, x6, -1
        bne x6, x0, again
        tmc x0
