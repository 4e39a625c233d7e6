; A slot behind another of its name is in use, but no file's. Slots 4 and 7 have the name "f", with 2 and 3 bytes of content. FDEL deletes the one in
; slot 4, and then there is no file. A FORK gives both their bases. What stands in slot 7 of a process is not reconciled, though it was changed.
;
; The root ends at a breakpoint where something else comes.
;
;   s1  the name        s4, s7  slots 4 and 7
.segment 0x1000 1
        li s4, 0xc0040000
        li s7, 0xc0070000
        addi s1, s4, 28
        addi a1, s1, 0
        addi a2, zero, 1
        addi a7, zero, 27       ; FLEN
        ecall
        addi t0, zero, 2
        bne a1, t0, other
        addi a1, zero, 1
        addi a7, zero, 16       ; FORK
        ecall
        bne a0, zero, kid
        addi a7, zero, 17       ; WAIT: nothing comes
        ecall
        lw t0, 4(s7)
        addi t1, zero, 8
        bne t0, t1, other
        addi t1, zero, 20
        bne a1, t1, other
        addi t0, zero, 9
        bne a2, t0, other
        addi a1, s1, 0
        addi a2, zero, 1
        addi a7, zero, 28       ; FDEL
        ecall
        addi a7, zero, 27       ; FLEN
        ecall
        addi t0, zero, 1
        bne a0, t0, other
        lw t0, 8(s4)
        addi t1, zero, 2
        bne t0, t1, other       ; the root's own base has stayed
        addi a0, zero, 0
        addi a7, zero, 3        ; Ret
        ecall
kid:    addi t0, zero, 5
        lw t1, 8(s4)
        bne t0, t1, other       ; the version is the base
        addi t0, zero, 8
        lw t1, 8(s7)
        bne t0, t1, other
        addi t0, zero, 3
        lw t1, 16(s7)
        bne t0, t1, other       ; the length is that at the base
        addi t0, zero, 9
        sw t0, 4(s7)            ; another version
        addi a0, zero, 9
        addi a7, zero, 3
        ecall
other:  ebreak
.segment 0xc0040000 3
        .word 0x31465444        ; the mark
        .word 5                 ; the version
        .word 2                 ; the base
        .word 2                 ; the length
        .word 1                 ; the length at the base
        .word 0                 ; flags
        .word 1                 ; the length of the name
        .word 0x66
        .zero 28
.segment 0xc0070000 3
        .word 0x31465444
        .word 8
        .word 3
        .word 3
        .word 0
        .word 1                 ; to add to
        .word 1
        .word 0x66
        .zero 28
