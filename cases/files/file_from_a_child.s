; A process writes a file, and its parent, which waits for it, writes that file to the console: how a result comes back.
.segment 0x1000 1
        lui s0, 2               ; at 0x2000 the name, of 3 bytes, and from 0x2010 on a buffer of 64
        addi a1, zero, 1        ; child 1
        addi a7, zero, 16       ; FORK
        ecall
        bne a0, zero, work      ; a0 is 1 in the process, 0 in the parent
        addi a7, zero, 17       ; WAIT of child 1: its files come
        ecall
        addi t0, zero, 20
        bne a1, t0, failed      ; a1 is the cause, a2 the value, a3 how many files were left out; 20 is ret
        addi a1, s0, 0
        addi a2, zero, 3
        addi a3, s0, 16
        addi a4, zero, 64
        addi a5, zero, 0
        addi a7, zero, 26       ; FGET
        ecall
        bne a0, zero, failed    ; a0 is the error, a1 how many bytes were read
        addi a2, a1, 0
        addi a1, s0, 16
        addi a7, zero, 4        ; console out
        ecall
        addi a7, zero, 3        ; Ret
        ecall
work:   addi a1, s0, 0
        addi a2, zero, 3
        addi a3, zero, 0        ; a file that may be replaced
        addi a7, zero, 24       ; FNEW
        ecall
        bne a0, zero, failed
        addi a1, s0, 0
        addi a2, zero, 3
        addi a3, s0, 8
        addi a4, zero, 5
        addi a5, zero, 0
        addi a7, zero, 25       ; FPUT
        ecall
        bne a0, zero, failed
        addi a7, zero, 3
        ecall
failed: ebreak
.segment 0x2000 3
        .word 0x00676f6c        ; log
        .word 0
        .word 0x656e6f64        ; done, and a line feed
        .byte 0x0a
        .zero 67
