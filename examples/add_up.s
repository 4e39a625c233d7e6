; Adds up the numbers from 1 to 1,000 by four threads: each adds up 250 of them, and the root adds the four sums.
;
;   s0  the number of a thread        s1  the whole sum        s2  where a sum stands
.segment 0x1000 1
        addi s0, zero, 0
fork:   addi a1, s0, 0          ; child s0
        addi a7, zero, 18       ; TFORK
        ecall
        bne a0, zero, thread    ; a0 is 1 in the thread, 0 in the root
        addi s0, s0, 1
        addi t0, zero, 4
        bne s0, t0, fork

        addi s0, zero, 0
        addi s1, zero, 0
        li s2, sums
join:   addi a1, s0, 0
        addi a7, zero, 19       ; TJOIN: what the thread has written comes to the root
        ecall
        lw t0, 0(s2)
        add s1, s1, t0
        addi s2, s2, 4
        addi s0, s0, 1
        addi t0, zero, 4
        bne s0, t0, join
        addi a0, s1, 0
        addi a7, zero, 3        ; Ret, with the sum
        ecall

thread: li s2, sums
        addi t0, s0, 0
        addi t1, zero, 0        ; becomes 250 * s0: RV32I does not multiply
first:  beq t0, zero, begin
        addi t1, t1, 250
        addi s2, s2, 4          ; and s2 the word of this thread
        addi t0, t0, -1
        jal zero, first
begin:  addi t0, zero, 250      ; how many numbers are left
        addi t2, zero, 0        ; their sum
turn:   addi t1, t1, 1
        add t2, t2, t1
        addi t0, t0, -1
        bne t0, zero, turn
        sw t2, 0(s2)
        addi a7, zero, 3        ; Ret ends the thread
        ecall

.segment 0x2000 3
sums:   .zero 16                ; a word for each thread
