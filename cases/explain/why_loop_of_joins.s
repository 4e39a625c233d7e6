; A root forks a hundred threads and joins them in a loop. Each writes one byte, at 0x2000 plus its number; but thread 57 writes that of thread 23.
.segment 0x1000 1
        addi s0, zero, 0
        addi s1, zero, 100
fork:   addi a1, s0, 0
        addi a7, zero, 18       ; TFORK of child s0
        ecall
        bne a0, zero, kid
        addi s0, s0, 1
        bne s0, s1, fork
        addi s0, zero, 0        ; the 603rd event of the root
        addi a7, zero, 19
join:   addi a1, s0, 0
        ecall                   ; TJOIN of child s0: the event 606 + 4 s0
        addi s0, s0, 1
        bne s0, s1, join
        addi a7, zero, 3
        ecall
kid:    addi t2, s0, 1          ; what it writes
        addi t0, zero, 57
        bne s0, t0, own
        addi s0, zero, 23
own:    lui t1, 2
        add t1, t1, s0
        sb t2, 0(t1)
        addi a7, zero, 3
        ecall
.segment 0x2000 3
        .zero 128
