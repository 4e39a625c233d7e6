; What names there may be: 1 to 32 bytes, none of which is 0. Each call's a0 and a1 are written to the console.
;
;   s0  the name        s1  its length
.segment 0x1000 1
        lui s0, 2               ; the name, and what is told, at 0x2000
        addi s1, zero, 0
        addi a3, zero, 1
        addi a7, zero, 24       ; FNEW: no name
        jal ra, ask
        addi s1, zero, 4
        addi a7, zero, 24       ; FNEW: a name with a byte 0
        jal ra, ask
        addi s1, zero, 33
        addi a7, zero, 24       ; FNEW: a name of 33 bytes
        jal ra, ask
        li a3, 0x2000
        addi a4, zero, 1
        addi a5, zero, 1
        addi a7, zero, 25       ; FPUT: the same
        jal ra, ask
        addi a7, zero, 26       ; FGET: the same
        jal ra, ask
        addi a7, zero, 27       ; FLEN: the same
        jal ra, ask
        addi a7, zero, 28       ; FDEL: the same
        jal ra, ask
        addi s1, zero, 1
        addi a3, zero, 1
        addi a7, zero, 24       ; FNEW: a name of one byte
        jal ra, ask
        addi s1, zero, 2
        addi a7, zero, 24       ; FNEW: another, of two bytes
        jal ra, ask
        addi a7, zero, 27       ; FLEN: it is another file: empty
        jal ra, ask
        addi a0, zero, 0
        addi a7, zero, 3        ; Ret
        ecall
ask:    addi a1, s0, 0
        addi a2, s1, 0
        ecall
        sw a0, 16(s0)
        sw a1, 20(s0)
        addi a1, s0, 16
        addi a2, zero, 8
        addi a7, zero, 4        ; console out
        ecall
        jalr zero, 0(ra)
.segment 0x2000 3
        .byte 0x6f              ; one, and a byte 0
        .byte 0x6e
        .byte 0x65
        .zero 61
