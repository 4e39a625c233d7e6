; Eight pages of the eight permissions, and 24 children that get a copy of one by Put with Copy. Child 4 p + k of the root gets the page of permission p, at
; 0x2000: for k = 0 it jumps there, for 1 it loads from there, for 2 it stores there. On the page stands an ECALL, and a 42 behind it.
.dti2
.segment 0x1000 5
        addi s0, zero, 0        ; the permission
        lui s3, 16              ; its page
        lui s2, 2
        lui a2, 3               ; the register block
        sw s2, 72(a2)           ; s2 of each child
        lui a5, 1
next:   addi s1, zero, 0        ; fetch, load or store
again:  slli a1, s0, 2
        add a1, a1, s1
        sw s1, 36(a2)           ; s1 of the child
        addi a7, zero, 1        ; Put
        lui a3, 1
        lui a4, 1
        addi a0, zero, 2        ; Copy of this page of code
        ecall
        addi a3, s3, 0
        lui a4, 2
        addi a0, zero, 67       ; Regs, Copy and Start
        ecall
        addi s1, s1, 1
        addi t0, zero, 3
        bne s1, t0, again
        lui t0, 1
        add s3, s3, t0
        addi s0, s0, 1
        addi t0, zero, 8
        bne s0, t0, next
        addi a7, zero, 3        ; Ret
        ecall
child:  addi a7, zero, 3        ; what each does ends with Ret, unless it is stopped before
        addi t0, zero, 1
        blt s1, t0, fetch
        beq s1, t0, load
        sw zero, 4(s2)
        ecall
load:   lw a0, 4(s2)
        ecall
fetch:  jalr zero, 0(s2)
.segment 0x3000 3
        .word child
        .zero 132
.segment 0x10000 0
        ecall
        .word 42
.segment 0x11000 1
        ecall
        .word 42
.segment 0x12000 2
        ecall
        .word 42
.segment 0x13000 3
        ecall
        .word 42
.segment 0x14000 4
        ecall
        .word 42
.segment 0x15000 5
        ecall
        .word 42
.segment 0x16000 6
        ecall
        .word 42
.segment 0x17000 7
        ecall
        .word 42
