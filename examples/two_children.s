; Starts two children on copies of this page of code, waits for both, and returns the sum of what they return.
.segment 0x1000 1
        lui a2, 2               ; the register block
        lui a3, 1
        lui a4, 1
        lui a5, 1
        addi t0, zero, 2
        addi s0, zero, 0
start:  addi a1, s0, 0
        sw s0, 32(a2)           ; the child's s0 is its number
        addi a7, zero, 1        ; Put
        addi a0, zero, 67       ; Regs, Copy and Start
        ecall
        addi s0, s0, 1
        bne s0, t0, start
        addi s1, zero, 0
        addi s0, zero, 0
wait:   addi a1, s0, 0
        addi a7, zero, 2        ; Get
        addi a0, zero, 1        ; Regs: waits until the child has stopped
        ecall
        lw t1, 132(a2)          ; its value
        add s1, s1, t1
        addi s0, s0, 1
        bne s0, t0, wait
        addi a0, s1, 0
        addi a7, zero, 3        ; Ret
        ecall
child:  slli a0, s0, 4
        addi a0, a0, 1
        addi a7, zero, 3
        ecall
.segment 0x2000 3
        .word child
        .zero 132
