; Threads 65,472 to 65,535, which are the last 64 numbers: thread i of them stores 65 + i at one byte, and returns it. The root returns the byte, and
; above it how many threads the start has started, and how many the commit found waiting. The last one's 0x80 stands.
;
;   s0  i        s1  the first number        s2  0x2000, the byte        s3  0x3000, the registers of a thread
.segment 0x1000 1
        addi s0, zero, 0
        lui s1, 16
        addi s1, s1, -64
        lui s2, 2
        lui s3, 3
        addi a6, zero, 0
        addi a7, zero, 1        ; Put
make:   addi t0, s0, 65
        sw t0, 40(s3)           ; a0
        addi a0, zero, 193      ; Regs, Start and Limit, which is 0
        add a1, s1, s0
        addi a2, s3, 0
        ecall
        addi s0, s0, 1
        addi t0, zero, 64
        bne s0, t0, make
        addi a1, s1, 0
        addi a2, zero, 64
        addi a3, zero, 4        ; each ends in its fourth event
        addi a7, zero, 20       ; QSTART
        ecall
        slli a0, a1, 16
        addi s4, a0, 0
        addi a1, s1, 0
        addi a7, zero, 21       ; QCOMMIT
        ecall
        slli a1, a1, 8
        add s4, s4, a1
        lbu a0, 0(s2)
        add a0, a0, s4
        addi a7, zero, 3        ; Ret
        ecall
thread: lui t0, 2
        sb a0, 0(t0)
        addi a7, zero, 3
        ecall
.segment 0x2000 3
        .byte 0
.segment 0x3000 3
        .word thread
        .zero 132
