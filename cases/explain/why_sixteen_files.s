; Two processes write sixteen files each, and the second WAIT finds all of them in conflict. Then the root fills 14 MB.
.segment 0x1000 1
        lui s0, 2
        addi s1, zero, 48       ; the last byte of a file's name
        addi s2, zero, 64
new:    sb s1, 3(s0)
        addi a1, s0, 0
        addi a2, zero, 4
        addi a3, zero, 0
        addi a7, zero, 24       ; FNEW
        ecall
        addi s1, s1, 1
        bne s1, s2, new
        addi a1, zero, 0        ; the 132nd event of the root
        addi a7, zero, 16       ; FORK of child 0
        ecall
        bne a0, zero, kid
        addi a1, zero, 1
        ecall                   ; and of child 1
        bne a0, zero, kid
        addi a1, zero, 0
        addi a7, zero, 17       ; WAIT for child 0
        ecall
        addi a1, zero, 1
        ecall                   ; and for child 1: the 143rd event
        lui t0, 0x10000
        lui t1, 0x10e00
        lui t2, 1
fill:   sb t2, 0(t0)
        sb s2, 1(t0)
        add t0, t0, t2
        bne t0, t1, fill
        addi a0, zero, 0
        addi a7, zero, 3
        ecall
kid:    addi s1, zero, 48
put:    sb s1, 3(s0)
        addi a1, s0, 0
        addi a2, zero, 4
        addi a3, s0, 0
        addi a4, zero, 4
        addi a5, zero, 0
        addi a7, zero, 25       ; FPUT: the name is the content, too
        ecall
        addi s1, s1, 1
        bne s1, s2, put
        addi a0, zero, 0
        addi a7, zero, 3
        ecall
.segment 0x2000 3
        .word 0x00746f6e        ; "not", and a byte that counts
.segment 0x10000000 3
        .zero 14680064
