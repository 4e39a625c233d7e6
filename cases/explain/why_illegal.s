; A word that is no instruction.
.segment 0x1000 1
        addi a0, zero, 7
        .word 0
