; Console out of a range that ends behind the last address.
.segment 0x1000 1
        addi a1, zero, -1
        addi a2, zero, 2
        addi a7, zero, 4        ; console out
        ecall
