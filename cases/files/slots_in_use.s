; What makes a slot one in use: for each row a process writes the header of a file "f" to slot 3 by hand, but for one number, and asks for its length.
; It returns what FLEN gives in a0, 0 or NoFile, and above it the length in a1 where there is a file.
;
;   s0  the row's number, which is the process's        s1  the row: the number's offset, and the number        s2  slot 3
.segment 0x1000 1
        addi s0, zero, 0
        li s1, rows
        lui s2, 0xc0030
next:   addi a1, s0, 0
        addi a7, zero, 16       ; FORK
        ecall
        bne a0, zero, kid
        addi s0, s0, 1
        addi s1, s1, 8
        addi t0, zero, 17
        bne s0, t0, next
        addi a7, zero, 3        ; Ret
        ecall
kid:    lw t0, 0(s1)
        add t0, t0, s2
        lw t1, 4(s1)
        sw t1, 0(t0)
        addi a1, s2, 28         ; the name
        addi a2, zero, 1
        addi a7, zero, 27       ; FLEN
        ecall
        bne a0, zero, end
        slli a0, a1, 4
end:    addi a7, zero, 3
        ecall
rows:   .word 0                 ; 0: the mark: DTF1
        .word 0x31465444
        .word 0
        .word 0x32465444
        .word 4                 ; 2: any version, and any base
        .word 0xffffffff
        .word 8
        .word 0xffffffff
        .word 12                ; 4: a length up to 61,440
        .word 61440
        .word 12
        .word 61441
        .word 16                ; 6: the same of the length at the base
        .word 61440
        .word 16
        .word 61441
        .word 20                ; 8: flags up to 7
        .word 1
        .word 20
        .word 8
        .word 20                ; 10: in conflict, and deleted
        .word 2
        .word 20
        .word 4
        .word 24                ; 12: a name of 1 to 32 bytes, none of them 0
        .word 0
        .word 24
        .word 2
        .word 24
        .word 33
        .word 28                ; 15: what stands behind the name does not count
        .word 0x6766
        .word 56                ; 16: the last byte of the name's field
        .word 0x67000000
.segment 0xc0030000 3
        .word 0x31465444
        .word 1
        .word 0
        .word 5                 ; the length
        .word 0
        .word 0
        .word 1                 ; the length of the name
        .word 0x66
        .zero 28
