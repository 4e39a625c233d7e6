; COUNT rounds of THREADS threads on a memory of PAGES pages, each of which has a word that is not 0. In its quantum of 30 events a thread stores 10
; numbers in a word of its own of one page: thread i of page i modulo 16.
.segment 0x1000 1
        li a1, 65535            ; a child that is not there
        li a4, 0x10000000
        li a5, PAGES
        slli a5, a5, 12
        addi a7, zero, 2        ; Get
        li a0, 0x3010           ; Perm: may be read and written
        ecall
        li t0, 0x10000000
        li t1, PAGES
        li t2, 4096
fill:   sw t1, 0(t0)
        add t0, t0, t2
        addi t1, t1, -1
        bne t1, zero, fill

        li s4, THREADS
        addi a1, zero, 0
        lui a2, 2               ; the registers of a thread
        addi a6, zero, 0
        addi a7, zero, 1        ; Put
make:   andi t0, a1, 15
        slli t0, t0, 12
        slli t1, a1, 2
        add t0, t0, t1
        li t1, 0x10000000
        add t0, t0, t1
        sw t0, 40(a2)           ; a0
        li a0, 193              ; Regs, Start and Limit, which is 0
        ecall
        addi a1, a1, 1
        bne a1, s4, make

        li s1, COUNT
        addi a2, s4, 0
        addi a3, zero, 30
        beq s1, zero, end
round:  addi a1, zero, 0
        addi a7, zero, 20       ; QSTART
        ecall
        addi a1, zero, 0
        addi a7, zero, 21       ; QCOMMIT
        ecall
        addi s1, s1, -1
        bne s1, zero, round
end:    addi a7, zero, 3        ; Ret
        ecall

thread: addi t0, t0, 1
        sw t0, 4(a0)
        jal zero, thread
.segment 0x2000 3
        .word thread
        .zero 132
