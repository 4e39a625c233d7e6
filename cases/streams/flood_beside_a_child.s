# It makes a child that spins, and then writes one byte for ever: cases/check closes the pipe behind ten. On demand nobody waits for the child, so it never
# runs; where it runs beside the root, it does not keep the run from ending.
.segment 0x1000 1
        addi a1, zero, 0
        addi a7, zero, 16
        ecall
        bne a0, zero, spin
        lui a1, 2
        addi a2, zero, 1
        addi a7, zero, 4
again:  ecall
        jal zero, again
spin:   jal zero, spin
.segment 0x2000 3
        .byte 0x41
