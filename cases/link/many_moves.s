; The root names children of two nodes in turn, ten thousand times each, and adds up what it counts: with three nodes it moves twenty thousand times.
.segment 0x1000 1
        lui s0, 5               ; 20,480
        addi s0, s0, -480       ; 20,000 calls
        addi s1, zero, 256      ; at home on node 1
        addi s2, zero, 512      ; at home on node 2
again:  addi a0, zero, 0        ; a Put without options makes a child
        addi a1, s1, 0
        addi a7, zero, 1
        ecall
        addi t0, s1, 0          ; the other child is next
        addi s1, s2, 0
        addi s2, t0, 0
        addi s0, s0, -1
        bne s0, zero, again
        addi a0, zero, 7
        addi a7, zero, 3
        ecall
