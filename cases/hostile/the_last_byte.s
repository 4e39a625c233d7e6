; Console out of the last byte of memory, which may not be read.
.segment 0x1000 1
        addi a1, zero, -1
        addi a2, zero, 1
        addi a7, zero, 4        ; console out
        ecall
