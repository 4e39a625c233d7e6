; A thread that computes as compute.s does, without an end, in ROUNDS rounds of QUANTUM events.
.segment 0x1000 1
        li a0, 193              ; Regs, Start and Limit, which is 0
        addi a1, zero, 0
        lui a2, 2               ; the registers of the thread
        addi a6, zero, 0
        addi a7, zero, 1        ; Put
        ecall
        li s1, ROUNDS
        addi a2, zero, 1
        li a3, QUANTUM
round:  addi a1, zero, 0
        addi a7, zero, 20       ; QSTART
        ecall
        addi a1, zero, 0
        addi a7, zero, 21       ; QCOMMIT
        ecall
        addi s1, s1, -1
        bne s1, zero, round
        addi a7, zero, 3        ; Ret
        ecall

thread: addi t1, zero, 1
loop:   slli t2, t1, 13
        xor t1, t1, t2
        srli t2, t1, 17
        xor t1, t1, t2
        slli t2, t1, 5
        xor t1, t1, t2
        add a0, a0, t1
        blt t1, zero, loop
        addi a0, a0, 1
        jal zero, loop
.segment 0x2000 3
        .word thread
        .zero 132
