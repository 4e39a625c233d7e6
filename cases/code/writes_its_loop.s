; Writes the instruction that its loop begins with, which has been executed: in turn `addi a0, a0, 2` and `addi a0, a0, 1`.
.segment 0x1000 3
.entry start
loop:   addi a0, a0, 1
        sw t1, 0(s0)
        xor t1, t1, t2
        addi t0, t0, -1
        bne t0, zero, loop
        addi s2, a0, 0
        lui a1, 1
        addi a2, zero, 8
        addi a7, zero, 4        ; console out of the first two words
        ecall
        addi a0, s2, 0
        addi a7, zero, 3        ; Ret
        ecall
start:  li s0, 0x1000
        li t1, 0x00250513
        li t2, 0x00300000
        li t0, 1001
        jal zero, loop
