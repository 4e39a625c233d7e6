; COUNT children are made and started on a copy of this page of code, and waited for; each returns at once.
.segment 0x1000 1
        li a2, block
        li a3, 0x1000
        li a4, 0x1000
        li a5, 4096
        li t0, COUNT
        addi a7, zero, 1        ; Put
put:    beq t0, zero, wait
        addi a0, zero, 67       ; Regs, Copy and Start
        ecall
        addi a1, a1, 1
        addi t0, t0, -1
        jal zero, put
wait:   li t0, COUNT
        addi a1, zero, 0
        addi a7, zero, 2        ; Get
get:    beq t0, zero, end
        addi a0, zero, 0
        ecall
        addi a1, a1, 1
        addi t0, t0, -1
        jal zero, get
end:    addi a7, zero, 3        ; Ret
        ecall
.segment 0x10000 3
block:  .word end
        .zero 132
