; Starts child 5 with a limit of 0 events, waits for it, and returns.
.segment 0x1000 1
        addi a7, zero, 1
        addi a0, zero, 192
        addi a1, zero, 5
        addi a6, zero, 0
        ecall
        addi a7, zero, 2
        addi a0, zero, 0
        ecall
        addi a7, zero, 3
        ecall
