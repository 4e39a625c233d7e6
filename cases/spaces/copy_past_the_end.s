; A range whose end lies above the memory's: the call is refused by the test of its range, and no child is made.
.segment 0x1000 1
        lui a4, 0xfffff
        lui a5, 2
        addi a7, zero, 1        ; Put
        addi a0, zero, 2        ; Copy
        ecall
        addi a7, zero, 3
        ecall
