; Each space makes child 0 with the same code and starts it, but for the deepest, which may have no child. Nobody waits.
.segment 0x1000 1
        lui a2, 2
        lui a3, 1
        lui a4, 1
        lui a5, 2
        addi a7, zero, 1
        addi a0, zero, 67
        ecall
        addi a7, zero, 3
        ecall
.segment 0x2000 3
        .word 0x1000
        .zero 132
