; The root and its child each have code of their own at 0x3000, a loop of a hundred turns: the root's adds 1 to s0, the child's 2. The root returns
; 256 times the child's s0, and its own.
.segment 0x1000 1
.entry start
start:  addi a1, zero, 1
        lui a2, 2               ; the register block
        lui a3, 4
        lui a4, 3
        lui a5, 1
        addi a7, zero, 1        ; Put
        addi a0, zero, 67       ; Regs, Copy and Start
        ecall
        addi t0, zero, 100
        jal zero, loop
back:   addi a7, zero, 2        ; Get
        addi a0, zero, 1        ; Regs: waits until the child has stopped
        ecall
        lw a0, 32(a2)           ; its s0
        slli a0, a0, 8
        add a0, a0, s0
        addi a7, zero, 3        ; Ret
        ecall
.segment 0x2000 3
        .word 0x3000
        .zero 16
        .word 100               ; t0
        .zero 112
.segment 0x3000 1
loop:   addi s0, s0, 1
        addi t0, t0, -1
        bne t0, zero, loop
        jal zero, back
.segment 0x4000 1
other:  addi s0, s0, 2
        addi t0, t0, -1
        bne t0, zero, other
        addi a7, zero, 3        ; Ret
        ecall
