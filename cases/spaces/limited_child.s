; Child 1 runs on behind its parent's code, with a limit that the script's clock gives, and makes a child of its own at its fourth event. The
; parent waits for it and returns the number of its cause: 18 is limit, 20 is ret.
.segment 0x1000 1
        addi a7, zero, 6        ; clock
        ecall
        addi a6, a1, 0          ; the limit
        lui a2, 2               ; the register block
        lui a3, 1
        lui a4, 1
        lui a5, 1
        addi a1, zero, 1
        addi a7, zero, 1        ; Put
        addi a0, zero, 195      ; Regs, Copy, Start and Limit
        ecall
        addi a7, zero, 2        ; Get
        addi a0, zero, 1        ; Regs: waits until the child has stopped
        ecall
        lw a0, 128(a2)          ; the number of its cause
        addi a7, zero, 3        ; Ret
        ecall
child:  addi a7, zero, 1        ; Put of child 9
        addi a0, zero, 0
        addi a1, zero, 9
        ecall
        addi a7, zero, 3
        ecall
.segment 0x2000 3
        .word child
        .zero 132
