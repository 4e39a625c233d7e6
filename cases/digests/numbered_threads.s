; The root forks two threads and waits for neither. Each writes its own number, 0 or 1, over the 0 at 0x2000: the memory of thread 0 is equal to
; the root's, that of thread 1 is another.
.segment 0x1000 1
        addi s0, zero, 0
        addi a1, zero, 0
        addi a7, zero, 18       ; TFORK
        ecall
        bne a0, zero, kid
        addi s0, zero, 1
        addi a1, zero, 1
        ecall
        bne a0, zero, kid
        addi a7, zero, 3        ; Ret
        ecall
kid:    lui t0, 2
        sb s0, 0(t0)
        addi a0, zero, 0
        addi a7, zero, 3
        ecall
.segment 0x2000 3
        .byte 0
