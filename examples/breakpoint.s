; Writes a line to the console, and stops at an EBREAK: a trap, so the status is 1.
.segment 0x1000 1
        lui a1, 2               ; the text, at 0x2000
        addi a2, zero, 13       ; its length
        addi a7, zero, 4        ; console out
        ecall
        ebreak
.segment 0x2000 1
        .word 0x6c6c6568        ; hell
        .word 0x77202c6f        ; o, w
        .word 0x646c726f        ; orld
        .byte 0x0a
