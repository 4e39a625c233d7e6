; Returns 7: the smallest program.
.segment 0x1000 1
        addi a7, zero, 3
        addi a0, zero, 7
        ecall
