; Writes at most 64 bytes of the input to the console, and returns the sum of a reading of the clock and a random number.
.segment 0x1000 1
        lui a1, 2
        addi a2, zero, 64
        addi a7, zero, 5        ; console in
        ecall
        addi a2, a1, 0
        lui a1, 2
        addi a7, zero, 4        ; console out
        ecall
        addi a7, zero, 6        ; clock
        ecall
        addi s0, a1, 0
        addi a7, zero, 7        ; random
        ecall
        add a0, s0, a1
        addi a7, zero, 3        ; Ret
        ecall
.segment 0x2000 3
        .zero 64
