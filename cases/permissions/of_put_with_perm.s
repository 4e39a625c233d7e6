; A page of data, and 24 children that get a copy of it by Put with Copy and Perm. Child 4 p + k of the root gets it with permission p, at 0x2000: for
; k = 0 it jumps there, for 1 it loads from there, for 2 it stores there. On the page stands an ECALL, and a 42 behind it.
.dti2
.segment 0x1000 5
        addi s0, zero, 0        ; the permission
        lui s2, 2               ; the page
        lui a2, 3               ; the register block
        sw s2, 72(a2)           ; s2 of each child
        lui a5, 1
next:   addi s1, zero, 0        ; fetch, load or store
again:  slli a1, s0, 2
        add a1, a1, s1
        sw s1, 36(a2)           ; s1 of the child
        addi a7, zero, 1        ; Put
        lui a3, 1
        lui a4, 1
        addi a0, zero, 2        ; Copy of this page of code
        ecall
        lui a3, 2
        lui a4, 2
        slli a0, s0, 12
        addi a0, a0, 83         ; Regs, Copy, Perm and Start
        ecall
        addi s1, s1, 1
        addi t0, zero, 3
        bne s1, t0, again
        addi s0, s0, 1
        addi t0, zero, 8
        bne s0, t0, next
        addi a7, zero, 3        ; Ret
        ecall
child:  addi a7, zero, 3        ; what each does ends with Ret, unless it is stopped before
        addi t0, zero, 1
        blt s1, t0, fetch
        beq s1, t0, load
        sw zero, 4(s2)
        ecall
load:   lw a0, 4(s2)
        ecall
fetch:  jalr zero, 0(s2)
.segment 0x2000 3
        ecall
        .word 42
.segment 0x3000 3
        .word child
        .zero 132
