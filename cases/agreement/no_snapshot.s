; Get with Merge and Agree of a process, which has no snapshot.
.segment 0x1000 1
        addi a1, zero, 0
        addi a7, zero, 16       ; FORK
        ecall
        bne a0, zero, child
        addi a0, zero, 520      ; Merge and Agree
        addi a7, zero, 2        ; Get
        ecall
        ebreak
child:  addi a7, zero, 3        ; Ret
        ecall
