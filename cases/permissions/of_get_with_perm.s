; 24 processes, of which each gives a page of its own another permission, by a Get with Perm of a child that is missing. Child 4 p + k of the root gives it
; permission p: for k = 0 it then jumps there, for 1 it loads from there, for 2 it stores there. On the page stands an ECALL, and a 42 behind it.
.dti2
.segment 0x1000 5
        addi s0, zero, 0        ; the permission
        lui s2, 2               ; the page
next:   addi s1, zero, 0        ; fetch, load or store
again:  slli a1, s0, 2
        add a1, a1, s1
        addi a7, zero, 16       ; FORK
        ecall
        bne a0, zero, permit
        addi s1, s1, 1
        addi t0, zero, 3
        bne s1, t0, again
        addi s0, s0, 1
        addi t0, zero, 8
        bne s0, t0, next
        addi a7, zero, 3        ; Ret
        ecall
permit: addi a4, s2, 0
        lui a5, 1
        slli a0, s0, 12
        addi a0, a0, 16         ; Perm
        addi a7, zero, 2        ; Get
        ecall
child:  addi a7, zero, 3        ; what each does ends with Ret, unless it is stopped before
        addi t0, zero, 1
        blt s1, t0, fetch
        beq s1, t0, load
        sw zero, 4(s2)
        ecall
load:   lw a0, 4(s2)
        ecall
fetch:  jalr zero, 0(s2)
.segment 0x2000 7
        ecall
        .word 42
