; Writes `AB` to the console and returns 0.
.segment 0x1000 1
        lui a1, 2
        addi a2, zero, 2
        addi a7, zero, 4
        ecall
        addi a7, zero, 3
        ecall
.segment 0x2000 1
        .byte 0x41
        .byte 0x42
