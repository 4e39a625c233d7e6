; A child adds 1 to s0 and returns. Then a Put copies other code over its page and starts it again: it goes on in that, jumps to its begin, and adds 10. The
; root returns the child's s0.
.segment 0x1000 1
        addi a1, zero, 1
        lui a2, 2               ; the register block
        lui a3, 3
        lui a4, 3
        lui a5, 1
        addi a7, zero, 1        ; Put
        addi a0, zero, 67       ; Regs, Copy and Start
        ecall
        lui a3, 4
        addi a0, zero, 66       ; Copy and Start: waits until the child has stopped
        ecall
        addi a7, zero, 2        ; Get
        addi a0, zero, 1        ; Regs: waits until the child has stopped
        ecall
        lw a0, 32(a2)           ; its s0
        addi a7, zero, 3        ; Ret
        ecall
.segment 0x2000 3
        .word 0x3000
        .zero 132
.segment 0x3000 1
code:   addi s0, s0, 1
        addi a7, zero, 3        ; Ret
        ecall
        jal zero, code
.segment 0x4000 1
other:  addi s0, s0, 10
        addi a7, zero, 3        ; Ret
        ecall
        jal zero, other
