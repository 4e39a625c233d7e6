; Two processes write one file, and the second WAIT finds that both changed it. The file stays in conflict, and no space is stopped by it.
.segment 0x1000 1
        lui s0, 2
        addi a1, s0, 0
        addi a2, zero, 4
        addi a3, zero, 0
        addi a7, zero, 24       ; FNEW
        ecall
        addi a1, zero, 0
        addi a7, zero, 16       ; FORK of child 0
        ecall
        bne a0, zero, kid
        addi a1, zero, 1
        ecall                   ; and of child 1
        bne a0, zero, kid
        addi a1, zero, 0
        addi a7, zero, 17       ; WAIT for child 0
        ecall
        addi a1, zero, 1
        ecall                   ; and for child 1: both changed the file
        addi a0, zero, 0
        addi a7, zero, 3
        ecall
kid:    addi a1, s0, 0
        addi a2, zero, 4
        addi a3, s0, 0
        addi a4, zero, 4
        addi a5, zero, 0
        addi a7, zero, 25       ; FPUT: the name is the content, too
        ecall
        addi a0, zero, 0
        addi a7, zero, 3
        ecall
.segment 0x2000 3
        .word 0x65746f6e        ; note
