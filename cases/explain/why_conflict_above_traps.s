; Three threads write a byte, and so does their parent. Thread 1 returns, and its join is in conflict; threads 2 and 3 then load from where no page may be read.
.segment 0x1000 1
        lui s0, 3               ; a page that may be written
        addi s1, zero, 1        ; the number of the thread
        addi s2, zero, 4
again:  add a1, s1, zero
        addi a7, zero, 18       ; TFORK
        ecall
        bne a0, zero, thread
        addi s1, s1, 1
        bne s1, s2, again
        addi t0, zero, 5
        sb t0, 0(s0)
        addi a1, zero, 1
        addi a7, zero, 19       ; TJOIN of thread 1
        ecall
thread: addi t0, s1, 6
        sb t0, 0(s0)
        addi t1, zero, 1
        bne s1, t1, bad
        addi a7, zero, 3        ; Ret
        ecall
bad:    slli t3, s1, 4
        lw t2, 0(t3)
.segment 0x3000 3
        .word 0
