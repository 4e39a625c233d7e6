; Makes a file whose content only grows, and ends.
.segment 0x1000 1
        lui a1, 2               ; its name
        addi a2, zero, 3        ; of three bytes
        addi a3, zero, 1        ; append
        addi a7, zero, 24       ; FNEW
        ecall
        addi a7, zero, 3        ; Ret
        ecall
.segment 0x2000 1
        .byte 0x6c              ; l
        .byte 0x6f              ; o
        .byte 0x67              ; g
