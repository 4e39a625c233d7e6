; The same as nobody_waits, but the root waits for its child and all below it. WAIT removes them, so the root alone is reported.
.segment 0x1000 1
        addi a1, zero, 1
        addi a7, zero, 16       ; FORK
        ecall
        bne a0, zero, kid
        addi a1, zero, 1
        addi a7, zero, 17       ; WAIT
        ecall
        addi a7, zero, 3        ; Ret
        ecall
kid:    addi a1, zero, 2
        addi a7, zero, 16
        ecall
        bne a0, zero, spin
        addi a7, zero, 3
        ecall
spin:   jal zero, spin
