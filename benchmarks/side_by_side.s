; THREADS threads are forked, each takes TURNS turns of a loop of two instructions, and all are joined, beside STOPPED children that never ran.
; Without threads the root takes the turns itself.
.segment 0x1000 1
        li a1, 10000            ; children from this number on
        li t0, STOPPED
        addi a0, zero, 0        ; no options
        addi a7, zero, 1        ; Put
put:    beq t0, zero, begin
        ecall
        addi a1, a1, 1
        addi t0, t0, -1
        jal zero, put
begin:  addi s0, zero, 0
        li s1, THREADS
        beq s0, s1, thread
fork:   addi a1, s0, 0
        addi a7, zero, 18       ; TFORK
        ecall
        bne a0, zero, thread
        addi s0, s0, 1
        bne s0, s1, fork
        addi s0, zero, 0
join:   addi a1, s0, 0
        addi a7, zero, 19       ; TJOIN
        ecall
        addi s0, s0, 1
        bne s0, s1, join
        addi a7, zero, 3        ; Ret
        ecall
thread: li t1, TURNS
turn:   addi t1, t1, -1
        bne t1, zero, turn
        addi a7, zero, 3
        ecall
