; A file to add to has room for 61,440 bytes: of what both a process and its parent have added, it takes just so much at WAIT, and with one byte more
; it is in conflict. Each of two processes returns the length of the file then, or the error that FLEN gives: 5.
;
;   s0  the number of the process        s1  the name, and what is added        s2  how many bytes the parent adds; its process adds 2
.segment 0x1000 1
        addi s0, zero, 0
        lui s1, 2
        li s2, 61438
next:   addi a1, s0, 0
        addi a7, zero, 16       ; FORK
        ecall
        bne a0, zero, kid
        addi s0, s0, 1
        addi s2, s2, 1
        addi t0, zero, 2
        bne s0, t0, next
        addi a7, zero, 3        ; Ret
        ecall
kid:    addi a1, s1, 0
        addi a2, zero, 1
        addi a3, zero, 1        ; to add to
        addi a7, zero, 24       ; FNEW
        ecall
        addi a1, zero, 1
        addi a7, zero, 16       ; FORK
        ecall
        bne a0, zero, two
        addi a4, s2, 0
        jal ra, add
        addi a1, zero, 1
        addi a7, zero, 17       ; WAIT
        ecall
        addi a1, s1, 0
        addi a2, zero, 1
        addi a7, zero, 27       ; FLEN
        ecall
        bne a0, zero, end
        addi a0, a1, 0
end:    addi a7, zero, 3
        ecall
two:    addi a4, zero, 2
        jal ra, add
        addi a7, zero, 3
        ecall
add:    addi a1, s1, 0
        addi a3, s1, 0
        addi a5, zero, 1
        addi a7, zero, 25       ; FPUT
        ecall
        jalr zero, 0(ra)
.segment 0x2000 1
        .byte 0x66
        .zero 65535
