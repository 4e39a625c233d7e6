; Put knows no Merge.
.segment 0x1000 1
        addi a7, zero, 1        ; Put
        addi a0, zero, 8        ; Merge
        ecall
