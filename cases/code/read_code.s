; The root keeps an instruction in a file, and calls a function. Then it reads the file to where the function stands, and calls it again: 1 and then 10
; are added to s0.
.segment 0x1000 1
.entry start
start:  lui a1, 3               ; the name
        addi a2, zero, 1
        addi a3, zero, 0
        addi a7, zero, 24       ; FNEW
        ecall
        lui a3, 3
        addi a3, a3, 4
        addi a4, zero, 4
        addi a5, zero, 0
        addi a7, zero, 25       ; FPUT
        ecall
        jal ra, work
        lui a3, 2
        addi a7, zero, 26       ; FGET
        ecall
        jal ra, work
        addi a0, s0, 0
        addi a7, zero, 3        ; Ret
        ecall
.segment 0x2000 3
work:   addi s0, s0, 1
        jalr zero, 0(ra)
.segment 0x3000 1
        .word 0x66              ; the name f
        .word 0x00a40413        ; addi s0, s0, 10
