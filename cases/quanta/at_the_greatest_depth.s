; The calls at depths 7 and 8. The spaces of a chain each fork child 0, down to depth 8. There neither call is refused, for neither makes a child: both
; say 0, and the space returns 0. The one at depth 7 waits for it, and lets a thread run in a round, whose 5 it returns.
;
;   s0  the depth        s2  0x2000, which all may read and write
.segment 0x1000 1
        addi s0, zero, 0
        lui s2, 2
down:   addi t0, zero, 8
        beq s0, t0, eight
        addi a1, zero, 0
        addi a7, zero, 16       ; FORK
        ecall
        beq a0, zero, up
        addi s0, s0, 1
        jal zero, down
up:     addi t0, zero, 7
        bne s0, t0, end
        addi a0, zero, 193      ; Regs, Start and Limit, which is 0
        addi a1, zero, 1
        lui a2, 3
        addi a6, zero, 0
        addi a7, zero, 1        ; Put
        ecall
        addi a1, zero, 0
        addi a2, zero, 2
        addi a3, zero, 100
        addi a7, zero, 20       ; QSTART waits for child 0, and starts child 1
        ecall
        slli s1, a1, 4
        addi a1, zero, 0
        addi a7, zero, 21       ; QCOMMIT
        ecall
        lbu a0, 0(s2)
        add a0, a0, s1
        addi a7, zero, 3
        ecall
end:    addi a0, zero, 0
        addi a7, zero, 3        ; Ret
        ecall
eight:  addi a1, zero, 0
        addi a2, zero, 64
        addi a3, zero, 1
        addi a7, zero, 20       ; QSTART
        ecall
        addi s1, a1, 0
        lui a1, 16
        addi a1, a1, -64        ; 65,472
        addi a7, zero, 21       ; QCOMMIT
        ecall
        add a0, a1, s1
        addi a7, zero, 3
        ecall
thread: lui s2, 2
        addi t0, zero, 5
        sb t0, 0(s2)
        addi a7, zero, 3
        ecall
.segment 0x2000 3
        .zero 4
.segment 0x3000 1
        .word thread
        .zero 132
