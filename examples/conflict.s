; As two_threads, but both threads write the same byte: the second join stops the root, and names the byte.
.segment 0x1000 1
        addi s0, zero, 0
fork:   addi a1, s0, 0
        addi a7, zero, 18       ; TFORK of child s0
        ecall
        bne a0, zero, kid       ; a0 is 1 in the thread, 0 in the root
        addi s0, s0, 1
        addi t0, zero, 2
        bne s0, t0, fork
        addi a1, zero, 0
        addi a7, zero, 19       ; TJOIN of child 0
        ecall
        addi a1, zero, 1        ; and of child 1
        ecall
        lui t0, 2
        lhu a0, 0(t0)
        addi a7, zero, 3        ; Ret
        ecall
kid:    lui t0, 2
        addi t0, t0, 0          ; byte 0x2000 of both
        addi t1, s0, 65         ; A or B
        sb t1, 0(t0)
        addi a7, zero, 3
        ecall
.segment 0x2000 3
        .byte 0
