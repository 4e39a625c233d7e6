; Code that is reached at addresses 4,096 apart, by adding 4,096 to where it jumps to.
.segment 0x1000 1
.entry start
        addi a0, a0, 1
        add s0, s0, s1
        jalr zero, 0(s0)
start:  li t0, 400
        li s0, 0x1000
        li s1, 0x1000
        jalr zero, 0(s0)
.segment 0x2000 1
        addi a0, a0, 2
        add s0, s0, s1
        jalr zero, 0(s0)
.segment 0x3000 1
        addi a0, a0, 4
        add s0, s0, s1
        jalr zero, 0(s0)
.segment 0x4000 1
        li s0, 0x1000
        addi t0, t0, -1
        beq t0, zero, done
        jalr zero, 0(s0)
done:   addi s2, a0, 0
        lui a1, 1
        addi a2, zero, 8
        addi a7, zero, 4        ; console out of the first two words
        ecall
        addi a0, s2, 0
        addi a7, zero, 3        ; Ret
        ecall
