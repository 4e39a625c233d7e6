; 64 threads over 4,076 pages, each with a byte of its own: in each of four rounds thread i adds 1 to the first byte of page i, which is 1. The root
; returns the sum of all bytes: 4,076 and 4 for each thread. What a start gives is a reference: copies of pages that nobody writes would need more
; memory than there is.
;
;   s1  0x10000000, the first page        s2  the end        s3  the bytes of a page        s4  0x3000, the registers        s5  64
.segment 0x1000 1
        lui s1, 0x10000
        lui s2, 0x10fec
        lui s3, 1
        lui s4, 3
        addi s5, zero, 64
        lui a0, 3
        addi a0, a0, 16         ; Perm, and the permission 3
        lui a1, 16
        addi a1, a1, -1         ; a child that is not there
        addi a4, s1, 0
        sub a5, s2, s1
        addi a7, zero, 2        ; Get
        ecall
        addi t0, s1, 0
        addi t1, zero, 1
write:  sb t1, 0(t0)
        add t0, t0, s3
        bne t0, s2, write
        addi a1, zero, 0
        addi t0, s1, 0
        addi a2, s4, 0
        addi a6, zero, 0
        addi a7, zero, 1        ; Put
make:   sw t0, 40(s4)           ; a0 of the thread: its page
        addi a0, zero, 193      ; Regs, Start and Limit, which is 0
        ecall
        add t0, t0, s3
        addi a1, a1, 1
        bne a1, s5, make
        addi s6, zero, 4
        addi a2, zero, 64
        addi a3, zero, 11
round:  addi a1, zero, 0
        addi a7, zero, 20       ; QSTART
        ecall
        addi a1, zero, 0
        addi a7, zero, 21       ; QCOMMIT
        ecall
        addi s6, s6, -1
        bne s6, zero, round
        addi t0, s1, 0
        addi a0, zero, 0
sum:    lbu t1, 0(t0)
        add a0, a0, t1
        add t0, t0, s3
        bne t0, s2, sum
        addi a7, zero, 3        ; Ret
        ecall
thread: lbu t0, 0(a0)
        addi t0, t0, 1
        sb t0, 0(a0)
        addi t0, zero, 3
turn:   addi t0, t0, -1
        bne t0, zero, turn      ; 6 events in this loop
        jal zero, thread        ; the 11th event: a quantum is 11
.segment 0x3000 3
        .word thread
        .zero 132
