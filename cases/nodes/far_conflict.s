; As examples/conflict, but the threads are 256 and 513, whose homes are nodes 1 and 2 where there are three: the second join stops the root, and names
; the byte.
.segment 0x1000 1
        addi a1, zero, 256
        addi a7, zero, 18       ; TFORK
        ecall
        bne a0, zero, kid       ; a0 is 1 in the thread, 0 in the root
        addi a1, zero, 513
        ecall
        bne a0, zero, kid
        addi a1, zero, 256
        addi a7, zero, 19       ; TJOIN
        ecall
        addi a1, zero, 513
        ecall
        addi a7, zero, 3        ; Ret
        ecall
kid:    lui t0, 2
        addi t1, a1, 65         ; A or B
        sb t1, 0(t0)
        addi a7, zero, 3
        ecall
.segment 0x2000 3
        .byte 0
