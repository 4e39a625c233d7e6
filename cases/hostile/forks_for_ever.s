; Each process forks one below it and ends; at the greatest depth the fork is refused.
.segment 0x1000 1
        addi a1, zero, 0
fork:   addi a7, zero, 16       ; FORK
        ecall
        bne a0, zero, fork
        addi a7, zero, 3        ; Ret
        ecall
