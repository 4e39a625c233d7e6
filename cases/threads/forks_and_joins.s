; A process for each row, which forks and joins child 1 and returns what the row says.
;
;   s0  the row's number, which is the process's        s2  0x2000, which may be read and written
.segment 0x1000 1
        addi s0, zero, 0
        lui s2, 2
next:   addi a1, s0, 0
        addi a7, zero, 16       ; FORK
        ecall
        bne a0, zero, kid
        addi s0, s0, 1
        addi t0, zero, 7
        bne s0, t0, next
        addi a7, zero, 3        ; Ret
        ecall
kid:    addi a1, zero, 1
        addi t0, zero, 1
        beq s0, zero, wait
        beq s0, t0, process
        addi a7, zero, 18       ; TFORK
        ecall
        bne a0, zero, thread
        addi t0, zero, 3
        beq s0, t0, again
        addi t0, zero, 4
        beq s0, t0, onto
        addi t0, zero, 5
        beq s0, t0, wait
        addi t0, zero, 6
        beq s0, t0, both
        addi a7, zero, 19       ; 2: TJOIN brings what stands below 0xC0000000 alone: 7, and no 8; the registers a1 to a3 are 20, 9 and as before
        addi a3, zero, 5
        ecall
        slli a1, a1, 8
        slli a2, a2, 16
        slli a3, a3, 24
        add a0, a1, a2
        add a0, a0, a3
        lbu t0, 0(s2)
        add a0, a0, t0
        lui t0, 0xc0000
        lbu t0, 1024(t0)
        add a0, a0, t0
        addi a7, zero, 3
        ecall
wait:   addi a7, zero, 17       ; 0: WAIT of a missing child: 21, 0 and 0; 5: of a thread: 20 and 9, and no byte comes
        addi a3, zero, 5
        ecall
        slli a1, a1, 8
        slli a2, a2, 16
        slli a3, a3, 24
        add a0, a1, a2
        add a0, a0, a3
        lbu t0, 0(s2)
        add a0, a0, t0
        addi a7, zero, 3
        ecall
process: addi a7, zero, 16
        ecall
        bne a0, zero, thread
        addi a7, zero, 19       ; 1: TJOIN of a process, which has no snapshot
        ecall
again:  addi a7, zero, 19       ; 3: the second TJOIN of a thread is in conflict where the first has brought a byte
        ecall
        addi a1, zero, 1
        ecall
onto:   addi t0, zero, 1
        sb t0, 0(s2)
        addi a7, zero, 16       ; 4: FORK onto a thread keeps its snapshot and its child: TJOIN finds the byte changed on both sides
        ecall
        bne a0, zero, thread
        addi a7, zero, 19
        ecall
both:   addi t0, zero, 7
        sb t0, 0(s2)
        addi a7, zero, 19       ; 6: a byte that both made 7 is a conflict
        ecall
thread: addi t0, zero, 7
        sb t0, 0(s2)
        lui t1, 0xc0000
        addi t0, zero, 8
        sb t0, 1024(t1)         ; in the first page that no join brings
        addi a1, zero, 2
        addi a0, zero, 0
        addi a7, zero, 1        ; Put: a child of its own
        ecall
        addi a0, zero, 9
        addi a7, zero, 3
        ecall
.segment 0x2000 3
        .zero 4
.segment 0xc0000000 3
        .zero 4
