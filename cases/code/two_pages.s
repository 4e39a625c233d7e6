; Two pages in turn, whose instructions stand at the same places of their pages.
.segment 0x1000 1
.entry start
first:  addi a0, a0, 1
        addi a1, a1, 1
        addi a2, a2, 1
        jal zero, second
start:  li t0, 500
        jal zero, first
.segment 0x2000 1
second: addi a0, a0, 2
        addi t0, t0, -1
        beq t0, zero, done
        jal zero, first
done:   addi s2, a0, 0
        lui a1, 1
        addi a2, zero, 8
        addi a7, zero, 4        ; console out of the first two words
        ecall
        addi a0, s2, 0
        addi a7, zero, 3        ; Ret
        ecall
