; A process asks for the clock, which the root alone has.
.segment 0x1000 1
        addi a1, zero, 1
        addi a7, zero, 16       ; FORK
        ecall
        bne a0, zero, kid
        addi a7, zero, 3
        ecall
kid:    addi a7, zero, 6        ; clock
        ecall
