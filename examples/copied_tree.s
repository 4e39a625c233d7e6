; A checkpoint by Put and Get with Tree. Child 1 has a child 4; it stops with 1 and, when it is started again, with 2.
;
; The root keeps a copy of child 1, with all below it, as child 7 of child 2, and lets child 1 go on. Then it takes a copy of that back as
; child 3, and lets it go on from where child 1 was copied. Copies are spaces of their own: the report has all of them, each with the fuel
; that was used until it was copied, and what it has used since.
.segment 0x1000 1
        addi a1, zero, 1
        addi a7, zero, 16       ; FORK of child 1
        ecall
        bne a0, zero, kid

        addi a1, zero, 2
        addi a3, zero, 1
        addi a4, zero, 7
        addi a0, zero, 256      ; Tree
        addi a7, zero, 1        ; Put: child 7 of child 2 becomes a copy of child 1; waits for child 1 and all below it
        ecall

        addi a1, zero, 1
        addi a0, zero, 64       ; Start: child 1 goes on behind its Ret
        ecall

        addi a1, zero, 2
        addi a3, zero, 7
        addi a4, zero, 3
        addi a0, zero, 256
        addi a7, zero, 2        ; Get: child 3 becomes a copy of child 7 of child 2
        ecall

        addi a1, zero, 3
        addi a0, zero, 64
        addi a7, zero, 1        ; Put: child 3 goes on as well
        ecall
        addi a7, zero, 3        ; Ret; children 1 and 3 are run at the end
        ecall

kid:    addi a1, zero, 4
        ecall                   ; a7 is still that of FORK
        bne a0, zero, below
        addi a0, zero, 1
        addi a7, zero, 3
        ecall
        addi a0, zero, 2
        ecall
below:  addi a0, zero, 44
        addi a7, zero, 3
        ecall
