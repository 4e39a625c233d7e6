; Slot 0 holds all that a file's header needs, but for a length of 61,441: it is free, and a new file takes it as the lowest.
;
; It returns the length of the file in slot 0, and ends at a breakpoint where no file was made.
.segment 0x1000 1
        lui s0, 0xc0000
        lui a1, 2               ; the name
        addi a2, zero, 1
        addi a3, zero, 0
        addi a7, zero, 24       ; FNEW
        ecall
        bne a0, zero, other
        lw a0, 12(s0)
        addi a7, zero, 3        ; Ret
        ecall
other:  ebreak
.segment 0x2000 1
        .byte 0x67
.segment 0xc0000000 3
        .word 0x31465444        ; the mark
        .word 1                 ; the version
        .word 0                 ; the base
        .word 61441             ; the length
        .word 0                 ; the length at the base
        .word 0                 ; flags
        .word 1                 ; the length of the name
        .word 0x66
        .zero 28
