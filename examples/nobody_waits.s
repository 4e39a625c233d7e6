; A child forks a grandchild that loops; nobody waits for either. Both are run at the end: the child returns, and the grandchild
; uses all its fuel.
.segment 0x1000 1
        addi a1, zero, 1
        addi a7, zero, 16       ; FORK
        ecall
        bne a0, zero, kid       ; a0 is 1 in the child
        addi a7, zero, 3        ; Ret
        ecall
kid:    addi a1, zero, 2
        addi a7, zero, 16
        ecall
        bne a0, zero, spin
        addi a7, zero, 3
        ecall
spin:   jal zero, spin
