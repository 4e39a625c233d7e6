; Get with Merge of a child that is missing, and so has no snapshot.
.segment 0x1000 1
        addi a7, zero, 2        ; Get
        addi a0, zero, 8        ; Merge
        ecall
