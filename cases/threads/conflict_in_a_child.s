; Child 9 does what `conflict` of the examples does: it forks two threads that both write the byte at 0x2000, joins the first, and is stopped by
; joining the second. The root copies child 9's page and returns the two bytes from 0x2000 on: the A that the first join brought is there.
.segment 0x1000 1
        addi a1, zero, 9
        addi a7, zero, 16       ; FORK of child 9
        ecall
        bne a0, zero, nine
        lui a3, 2               ; from its page at 0x2000
        lui a4, 3               ; to the root's at 0x3000
        lui a5, 1
        addi a0, zero, 2        ; Copy
        addi a7, zero, 2        ; Get: waits until child 9 has stopped
        ecall
        lui t0, 3
        lhu a0, 0(t0)
        addi a7, zero, 3        ; Ret
        ecall
nine:   addi s0, zero, 0
fork:   addi a1, s0, 0
        addi a7, zero, 18       ; TFORK of child s0
        ecall
        bne a0, zero, kid
        addi s0, s0, 1
        addi t0, zero, 2
        bne s0, t0, fork
        addi a1, zero, 0
        addi a7, zero, 19       ; TJOIN of child 0
        ecall
        addi a1, zero, 1        ; and of child 1
        ecall
        ebreak
kid:    lui t0, 2
        addi t1, s0, 65         ; A or B
        sb t1, 0(t0)
        addi a7, zero, 3
        ecall
.segment 0x2000 3
        .byte 0
