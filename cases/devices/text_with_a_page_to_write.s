; Writes a byte to the console, and then two, of which the second may only be written to, not read: nothing of the two is written.
.segment 0x1000 1
        lui a1, 3
        addi a1, a1, -1
        addi a2, zero, 1
        addi a7, zero, 4        ; console out
        ecall
        addi a2, zero, 2
        ecall
.segment 0x2000 3
        .zero 4095
        .byte 0x41
.segment 0x3000 2
        .byte 0x42
