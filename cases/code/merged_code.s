; The root calls a function and forks a thread, which writes the function's instruction anew. Behind the join the root calls it again: 1 and then 10 are
; added to s0.
.segment 0x1000 1
.entry start
start:  jal ra, work
        addi a1, zero, 1
        addi a7, zero, 18       ; TFORK
        ecall
        bne a0, zero, thread
        addi a1, zero, 1
        addi a7, zero, 19       ; TJOIN
        ecall
        jal ra, work
        addi a0, s0, 0
        addi a7, zero, 3        ; Ret
        ecall
thread: li t1, 0x00a40413       ; addi s0, s0, 10
        lui t2, 2
        sw t1, 0(t2)
        addi a0, zero, 0
        addi a7, zero, 3        ; Ret
        ecall
.segment 0x2000 3
work:   addi s0, s0, 1
        jalr zero, 0(ra)
