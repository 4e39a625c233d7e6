; What may still be done at depths 6, 7 and 8. The spaces of a chain each fork child 0, down to depth 7; those at depths 6 and 7 make a call on a
; copied tree behind that, and the one at depth 7 has seven children more, which each make one call.
;
;   s0  the depth        s1  the number of a child at depth 8
.segment 0x1000 1
        addi s0, zero, 0
down:   addi a1, zero, 0
        addi a7, zero, 16       ; FORK of child 0
        ecall
        beq a0, zero, back
        addi s0, s0, 1
        addi t0, zero, 7
        bne s0, t0, down
        addi s1, zero, 0
next:   addi a1, s1, 0          ; at depth 7
        addi a7, zero, 16       ; FORK
        ecall
        bne a0, zero, last
        addi s1, s1, 1
        addi t0, zero, 7
        bne s1, t0, next
        addi a0, zero, 256      ; Tree
        addi a1, zero, 9
        addi a3, zero, 99       ; of a child that is missing
        addi a7, zero, 1        ; Put: badcall 8 at depth 7
        ecall
back:   addi t0, zero, 5
        blt s0, t0, end         ; depths 0 to 4 do no more
        addi t0, zero, 6
        beq s0, t0, six
        addi a0, zero, 256      ; at depth 5: a copy of child 0 to child 3, whose child 4 is as high as may be, but not child 0 itself
        addi a1, zero, 3
        addi a3, zero, 0
        addi a4, zero, 4
        addi a7, zero, 1        ; Put: badcall 8
        ecall
six:    addi a0, zero, 0
        addi a1, zero, 1
        addi a7, zero, 1        ; Put: child 1 is made
        ecall
        addi a0, zero, 256
        addi a1, zero, 2
        addi a3, zero, 1
        addi a4, zero, 7
        ecall                   ; Put with Tree: child 7 of child 2 is a copy of it, at depth 8
        addi a0, zero, 256
        addi a1, zero, 5
        addi a3, zero, 2
        ecall                   ; Put with Tree of child 2, whose child would be at depth 9: badcall 8
end:    addi a0, zero, 0
        addi a7, zero, 3        ; Ret
        ecall
last:   addi a1, zero, 0        ; at depth 8, on child 0
        slli t0, s1, 4
        li t1, rows
        add t0, t0, t1
        jalr zero, 0(t0)
rows:   addi a0, zero, 0
        addi a7, zero, 1        ; 0: Put: badcall 8
        ecall
        ebreak
        addi a7, zero, 16       ; 1: FORK: badcall 8
        ecall
        .zero 8
        addi a7, zero, 18       ; 2: TFORK: badcall 8
        ecall
        .zero 8
        addi a7, zero, 19       ; 3: TJOIN: badcall 5, for there is no child
        ecall
        .zero 8
        addi a7, zero, 17       ; 4: WAIT goes on: there is no child
        ecall
        ebreak
        .zero 4
        addi a0, zero, 256
        addi a7, zero, 2        ; 5: Get with Tree goes on
        ecall
        ebreak
        addi a0, zero, 1        ; 6: Put with Regs at no multiple of 4: 8 comes before 9
        addi a2, zero, 2
        addi a7, zero, 1
        ecall
