; Counts the bits of a word and returns their number: loops, shifts, loads.
.segment 0x1000 1
        lui t0, 2
        lw t1, 0(t0)
        addi a0, zero, 0
next:   andi t2, t1, 1
        add a0, a0, t2
        srli t1, t1, 1
        bne t1, zero, next
        addi a7, zero, 3
        ecall
.segment 0x2000 1
        .word 0xcafef00d
