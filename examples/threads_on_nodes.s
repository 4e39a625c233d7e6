; Adds up the numbers from 1 to 64 by threads on four nodes: on each node a leader, which forks two threads that stay there.
;
; The high byte of a child's number names its node, and a caller goes to the node of the child that it calls. So the root goes from node to node, once to
; fork the leaders and once to join them. A leader's threads have its own high byte, so it forks and joins them without a move. By `det run --engine pool
; --nodes 4` each leader has a node of its own; with fewer nodes some share one, and without nodes all are in one place: what comes of it is the same.
;
;   s0  the sums, at 0x10000: a word for each thread      s2  which thread of its node it is
;   s1  the node                                          s3, s5  how many nodes there are, and threads on each
.segment 0x1000 1
        lui s0, 0x10
        addi s3, zero, 4
        addi s1, zero, 0
lead:   slli a1, s1, 8          ; child 256 * s1, the leader of node s1
        addi a7, zero, 18       ; TFORK
        ecall
        bne a0, zero, leader    ; a0 is 1 in the leader, 0 in the root
        addi s1, s1, 1
        bne s1, s3, lead
        addi s1, zero, 0
        addi s4, zero, 0        ; the whole sum
join:   slli a1, s1, 8
        addi a7, zero, 19       ; TJOIN
        ecall
        slli t0, s1, 3          ; the two words of the node
        add t0, t0, s0
        lw t1, 0(t0)
        add s4, s4, t1
        lw t1, 4(t0)
        add s4, s4, t1
        addi s1, s1, 1
        bne s1, s3, join
        addi a0, s4, 0
        addi a7, zero, 3        ; Ret
        ecall

        ; A leader forks and joins its threads.
leader: addi s2, zero, 0
        addi s5, zero, 2
fork:   slli a1, s1, 8
        add a1, a1, s2          ; child 256 * s1 + s2, at home on this node too
        addi a7, zero, 18
        ecall
        bne a0, zero, thread
        addi s2, s2, 1
        bne s2, s5, fork
        addi s2, zero, 0
wait:   slli a1, s1, 8
        add a1, a1, s2
        addi a7, zero, 19
        ecall
        addi s2, s2, 1
        bne s2, s5, wait
        addi a7, zero, 3
        ecall

        ; A thread adds up eight numbers, and writes the sum to its word.
thread: slli t0, s1, 1
        add t0, t0, s2          ; its place among all threads
        slli t1, t0, 3          ; the number before its first
        addi t2, t1, 8          ; its last number
        addi t3, zero, 0
more:   addi t1, t1, 1
        add t3, t3, t1
        bne t1, t2, more
        slli t0, t0, 2
        add t0, t0, s0
        sw t3, 0(t0)
        addi a7, zero, 3
        ecall
.segment 0x10000 3
        .zero 32
