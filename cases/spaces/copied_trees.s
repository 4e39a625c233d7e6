; A process for each row: it has a child 3, which has a child 4, and a child 5, and each returns its own number. Then the process makes the row's call
; with Tree and returns. The report has what became of the trees; a space that Put made has never run.
;
;   s0  the row's number, which is the child's        s1  the row: Put or Get, and a1, a3 and a4
.segment 0x1000 1
        addi s0, zero, 0
        li s1, rows
next:   addi a1, s0, 0
        addi a7, zero, 16       ; FORK
        ecall
        bne a0, zero, kid
        addi s0, s0, 1
        addi s1, s1, 16
        addi t0, zero, 9
        bne s0, t0, next
        addi a7, zero, 3        ; Ret
        ecall
kid:    addi a1, zero, 3
        addi a7, zero, 16
        ecall
        bne a0, zero, three
        addi a1, zero, 5
        ecall
        bne a0, zero, five
        addi a0, zero, 256      ; Tree
        lw a7, 0(s1)
        lw a1, 4(s1)
        lw a3, 8(s1)
        lw a4, 12(s1)
        ecall
        addi a7, zero, 3
        ecall
three:  addi a1, zero, 4
        ecall
        bne a0, zero, four
        addi a0, zero, 3
        addi a7, zero, 3
        ecall
four:   addi a0, zero, 4
        addi a7, zero, 3
        ecall
five:   addi a0, zero, 5
        addi a7, zero, 3
        ecall
rows:   .word 1                 ; 0: Put makes child 1, whose child 7 is a copy of child 3
        .word 1
        .word 3
        .word 7
        .word 1                 ; 1: child 7 of child 3 is a copy of what child 3 was before the call
        .word 3
        .word 3
        .word 7
        .word 1                 ; 2: so is child 4, in place of the one that was there
        .word 3
        .word 3
        .word 4
        .word 1                 ; 3: a copy of a missing child is none, and takes child 4 away
        .word 3
        .word 9
        .word 4
        .word 1                 ; 4: child 9 is made, and has no child
        .word 9
        .word 9
        .word 4
        .word 2                 ; 5: Get: child 7 is a copy of child 4 of child 3
        .word 3
        .word 4
        .word 7
        .word 2                 ; 6: child 3 becomes a copy of its child 4
        .word 3
        .word 4
        .word 3
        .word 2                 ; 7: child 3 has no child 9: child 5 is taken away
        .word 3
        .word 9
        .word 5
        .word 2                 ; 8: there is no child 9: the same
        .word 9
        .word 4
        .word 5
