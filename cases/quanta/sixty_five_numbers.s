; Threads 0 and 1 store 65 and 66 at one byte, and run in rounds until none waits for a quantum any more. The root returns the byte: the higher
; number decides.
; A row of 65 numbers is refused, though no more than two of them have children.
.segment 0x1000 1
        addi a7, zero, 1        ; Put
        addi a0, zero, 193      ; Regs, Start and Limit, which is 0
        addi a1, zero, 0
        lui a2, 3               ; the registers
        addi a6, zero, 0
        ecall
        addi t0, zero, 66
        sw t0, 40(a2)           ; a0 of thread 1
        addi a0, zero, 193
        addi a1, zero, 1
        ecall
round:  addi a1, zero, 0
        addi a2, zero, 65
        addi a3, zero, 100
        addi a7, zero, 20       ; QSTART
        ecall
        addi a1, zero, 0
        addi a7, zero, 21       ; QCOMMIT: a1 is how many wait
        ecall
        bne a1, zero, round
        lui t0, 2
        lbu a0, 0(t0)
        addi a7, zero, 3        ; Ret
        ecall
thread: lui t0, 2
        sb a0, 0(t0)
        addi a7, zero, 3
        ecall
.segment 0x2000 3
        .byte 0
.segment 0x3000 3
        .word thread
        .zero 36
        .word 65                ; a0 of thread 0
        .zero 92
