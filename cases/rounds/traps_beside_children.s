; The root forks two children and stops at an EBREAK while both run; they run to their end.
.segment 0x1000 1
        addi a1, zero, 1
        addi a7, zero, 16       ; FORK
        ecall
        bne a0, zero, kid
        addi a1, zero, 2
        ecall
        bne a0, zero, kid
        ebreak
kid:    li t0, 3000
turn:   addi t0, t0, -1
        bne t0, zero, turn
        addi a7, zero, 3        ; Ret
        ecall
