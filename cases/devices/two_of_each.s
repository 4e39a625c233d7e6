; Asks for two readings of the clock and two random numbers, and writes a0 and a1 of each call.
.segment 0x1000 1
        lui s0, 2
        addi a7, zero, 6        ; clock
        jal ra, ask
        addi a7, zero, 6
        jal ra, ask
        addi a7, zero, 7        ; random
        jal ra, ask
        addi a7, zero, 7
        jal ra, ask
        addi a7, zero, 3        ; Ret
        ecall
ask:    ecall
        sw a0, 0(s0)
        sw a1, 4(s0)
        addi a1, s0, 0
        addi a2, zero, 8
        addi a7, zero, 4        ; console out
        ecall
        jalr zero, 0(ra)
.segment 0x2000 3
        .zero 8
