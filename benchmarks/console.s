; COUNT times the same LENGTH bytes, at most 64, are written to the console.
.segment 0x1000 1
        li s1, COUNT
        lui a1, 2
        addi a2, zero, LENGTH
        addi a7, zero, 4        ; console out
write:  ecall
        addi s1, s1, -1
        bne s1, zero, write
        addi a7, zero, 3        ; Ret
        ecall
.segment 0x2000 1
        .byte 120
        .zero 63
