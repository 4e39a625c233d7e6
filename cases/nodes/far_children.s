; As examples/nobody_waits.s, but the high byte of each child's number names a node: the child is 256, and its own child, which loops, 513.
.segment 0x1000 1
        addi a1, zero, 256
        addi a7, zero, 16       ; FORK
        ecall
        bne a0, zero, kid       ; a0 is 1 in the child
        addi a7, zero, 3        ; Ret
        ecall
kid:    addi a1, zero, 513
        addi a7, zero, 16
        ecall
        bne a0, zero, spin
        addi a7, zero, 3
        ecall
spin:   jal zero, spin
