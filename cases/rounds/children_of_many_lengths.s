; Three processes count down from 5, 800,000 and 1,200,000, two events a step, so the last takes more than two million. The parent waits for the
; second alone.
.segment 0x1000 1
        li s0, 5
        addi a1, zero, 0
        addi a7, zero, 16       ; FORK
        ecall
        bne a0, zero, work
        li s0, 800000
        addi a1, zero, 1
        addi a7, zero, 16
        ecall
        bne a0, zero, work
        li s0, 1200000
        addi a1, zero, 2
        addi a7, zero, 16
        ecall
        bne a0, zero, work
        addi a0, zero, 0
        addi a1, zero, 1
        addi a7, zero, 2        ; Get: waits until the child has stopped
        ecall
        addi a0, zero, 0
        addi a7, zero, 3        ; Ret
        ecall
work:   addi s0, s0, -1
        bne s0, zero, work
        addi a7, zero, 3
        ecall
