; Makes a child and copies a range that ends with the last byte of memory into it.
.segment 0x1000 1
        lui a4, 0xfffff
        lui a5, 1
        addi a7, zero, 1
        addi a0, zero, 2
        ecall
        addi a7, zero, 3
        ecall
