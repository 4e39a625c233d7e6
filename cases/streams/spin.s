# It writes one byte and then spins: cases/check reads the byte while it does.
.segment 0x1000 1
        lui a1, 2
        addi a2, zero, 1
        addi a7, zero, 4
        ecall
spin:   jal zero, spin
.segment 0x2000 1
        .byte 0x41
