; Writes the highest byte of the instruction that its loop begins with: the immediate is 17 and 1 in turn.
.segment 0x1000 3
.entry start
loop:   addi a0, a0, 1
        sb t1, 3(s0)
        xor t1, t1, t2
        addi t0, t0, -1
        bne t0, zero, loop
        addi s2, a0, 0
        lui a1, 1
        addi a2, zero, 8
        addi a7, zero, 4        ; console out of the first two words
        ecall
        addi a0, s2, 0
        addi a7, zero, 3        ; Ret
        ecall
start:  li s0, 0x1000
        li t1, 1
        li t2, 1
        li t0, 1000
        jal zero, loop
