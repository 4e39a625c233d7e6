; Three children spin, limited to one event less than 1,048,576, to as many, and to one more. The parent waits for none of them.
.segment 0x1000 1
        lui a2, 2               ; the register block
        lui a3, 1
        lui a4, 1
        lui a5, 1
        li a6, 1048575
        addi a1, zero, 0
        addi t0, zero, 3
start:  addi a7, zero, 1        ; Put
        addi a0, zero, 195      ; Regs, Copy, Start and Limit
        ecall
        addi a6, a6, 1
        addi a1, a1, 1
        bne a1, t0, start
        addi a0, zero, 0
        addi a7, zero, 3        ; Ret
        ecall
spin:   jal zero, spin
.segment 0x2000 3
        .word spin
        .zero 132
