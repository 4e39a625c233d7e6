; THREADS threads are forked, each takes TURNS turns of a loop of two instructions. The root writes a prompt of 2 bytes, takes as many turns, and joins them.
.segment 0x1000 1
        addi s0, zero, 0
        li s1, THREADS
        beq s0, s1, prompt
fork:   addi a1, s0, 0
        addi a7, zero, 18       ; TFORK
        ecall
        bne a0, zero, thread
        addi s0, s0, 1
        bne s0, s1, fork
prompt: lui a1, 2
        addi a2, zero, 2
        addi a7, zero, 4        ; console out
        ecall
        li t1, TURNS
mine:   addi t1, t1, -1
        bne t1, zero, mine
        addi s0, zero, 0
        beq s0, s1, end
join:   addi a1, s0, 0
        addi a7, zero, 19       ; TJOIN
        ecall
        addi s0, s0, 1
        bne s0, s1, join
end:    addi a7, zero, 3        ; Ret
        ecall
thread: li t1, TURNS
turn:   addi t1, t1, -1
        bne t1, zero, turn
        addi a7, zero, 3
        ecall
.segment 0x2000 1
        .byte 62
        .byte 32
