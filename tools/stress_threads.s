; Two threads of 1,100 to 1,611 turns of a loop, forked and joined two hundred times: again and again workers have
; nothing to do for a moment.
.segment 0x1000 1
        li s0, 200              ; rounds that are left
        li s1, 12345            ; a xorshift generator: how long the threads take
again:  slli t2, s1, 13
        xor s1, s1, t2
        srli t2, s1, 17
        xor s1, s1, t2
        slli t2, s1, 5
        xor s1, s1, t2
        addi s2, zero, 2
fork:   add a1, s2, zero
        addi a7, zero, 18       ; TFORK
        ecall
        bne a0, zero, thread
        addi s2, s2, -1
        bne s2, zero, fork
        addi a1, zero, 1
        addi a7, zero, 19       ; TJOIN
        ecall
        addi a1, zero, 2
        ecall
        addi s0, s0, -1
        bne s0, zero, again
        addi a7, zero, 3        ; Ret
        ecall
thread: andi t0, s1, 511
        addi t1, zero, 1
        beq s2, t1, long
        srli t0, s1, 9
        andi t0, t0, 511
long:   addi t0, t0, 1100
spin:   addi t0, t0, -1
        bne t0, zero, spin
        addi a7, zero, 3
        ecall
.entry 0x1000
