; The root makes a file and forks a child, and each adds a byte to it: the file's content may only be added to, so the wait brings the child's byte
; behind the root's, and the root reads both. `both_add_in_conflict` is the same of a file that may be replaced as well.
.segment 0x1000 1
        lui a1, 2               ; the name: one byte at 0x2000
        addi a2, zero, 1
        addi a3, zero, 1        ; the content may only be added to
        addi a7, zero, 24       ; FNEW
        ecall
        addi a1, zero, 1
        addi a7, zero, 16       ; FORK of child 1
        ecall
        lui a3, 2
        add a3, a3, a0          ; the root adds the byte at 0x2000, the child the one at 0x2001
        addi t0, a0, 0
        lui a1, 2
        addi a4, zero, 1
        addi a5, zero, 1        ; behind the content
        addi a7, zero, 25       ; FPUT
        ecall
        bne t0, zero, kid
        addi a1, zero, 1
        addi a7, zero, 17       ; WAIT for child 1
        ecall
        lui a1, 2
        addi a2, zero, 1
        addi a3, a1, 16         ; a buffer of two bytes at 0x2010
        addi a4, zero, 2
        addi a5, zero, 0        ; from the first byte on
        addi a7, zero, 26       ; FGET
        ecall
        lui a1, 2
        addi a1, a1, 16
        addi a2, zero, 2
        addi a7, zero, 4        ; the buffer, whatever is in it
        ecall
kid:    addi a7, zero, 3
        ecall
.segment 0x2000 3
.byte 0x61
.byte 0x63
