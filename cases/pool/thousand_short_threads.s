; A thousand threads are forked, each of which takes 100 turns of a loop. All are joined.
.segment 0x1000 1
        addi s0, zero, 0
        li s1, 1000
fork:   addi a1, s0, 0
        addi a7, zero, 18       ; TFORK
        ecall
        bne a0, zero, thread
        addi s0, s0, 1
        bne s0, s1, fork
        addi s0, zero, 0
join:   addi a1, s0, 0
        addi a7, zero, 19       ; TJOIN
        ecall
        addi s0, s0, 1
        bne s0, s1, join
        addi a7, zero, 3        ; Ret
        ecall
thread: addi t1, zero, 100
turn:   addi t1, t1, -1
        bne t1, zero, turn
        addi a7, zero, 3
        ecall
