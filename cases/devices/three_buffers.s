; Takes input by buffers of 3, 9 and 4 bytes, and writes of each call a0, a1 and as many bytes of the buffer as a1 says.
.segment 0x1000 1
        lui s0, 2               ; two words, and the buffer behind them
        addi a2, zero, 3
        jal ra, take
        addi a2, zero, 9
        jal ra, take
        addi a2, zero, 4
        jal ra, take
        addi a7, zero, 3        ; Ret
        ecall
take:   addi a1, s0, 8
        addi a7, zero, 5        ; console in
        ecall
        sw a0, 0(s0)
        sw a1, 4(s0)
        addi a2, a1, 8
        addi a1, s0, 0
        addi a7, zero, 4        ; console out
        ecall
        jalr zero, 0(ra)
.segment 0x2000 3
        .zero 20
