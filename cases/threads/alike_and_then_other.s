; A thread writes to a byte the value that it has, and is joined: that brings nothing, and its page need not be looked at again. The root lets it go
; on, and it writes another byte of the page. The second join brings that byte, which the root returns with the first.
.segment 0x1000 1
        lui s2, 2
        addi a1, zero, 1
        addi a7, zero, 18       ; TFORK
        ecall
        bne a0, zero, kid
        addi a7, zero, 19       ; TJOIN brings nothing
        ecall
        addi a1, zero, 1
        addi a0, zero, 64
        addi a7, zero, 1        ; Put with Start: the thread goes on
        ecall
        addi a7, zero, 19       ; TJOIN brings the 9
        ecall
        lw a0, 0(s2)            ; 7, 0 and 9
        addi a7, zero, 3        ; Ret
        ecall
kid:    addi t0, zero, 7
        sb t0, 0(s2)
        addi a7, zero, 3
        ecall
        addi t0, zero, 9
        sb t0, 2(s2)
        lw a0, 0(s2)            ; 7, 0 and 9
        ecall
.segment 0x2000 3
        .word 7
