; Starts 300 threads, which all trap: an even one loads from four times its number, where no page may be read, and an odd one comes to a word that is no instruction.
.segment 0x1000 1
        addi s0, zero, 0
        addi s1, zero, 300
again:  add a1, s0, zero        ; the number of the thread
        addi a7, zero, 18       ; TFORK
        ecall
        bne a0, zero, kid
        addi s0, s0, 1
        bne s0, s1, again
        addi a7, zero, 3        ; Ret
        ecall
kid:    andi t1, s0, 1
        bne t1, zero, odd
        slli t0, s0, 2
        lw t2, 0(t0)
odd:    .word 0
