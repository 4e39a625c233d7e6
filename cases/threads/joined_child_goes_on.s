; The root joins a thread that wrote to a page which the root still has as it forked it, writes there, and lets the thread go on. What the thread
; writes then is not in the root, and what the root has written is not in the thread. A second merge, with Agree, brings the thread's later byte.
; The root returns the word behind that merge, and in its upper bits the word that it had before.
.segment 0x1000 1
        lui s2, 2
        addi a1, zero, 1
        addi a7, zero, 18       ; TFORK
        ecall
        bne a0, zero, kid
        addi a7, zero, 19       ; TJOIN brings the 7
        ecall
        addi t0, zero, 5
        sb t0, 1(s2)
        addi a1, zero, 1
        addi a0, zero, 64
        addi a7, zero, 1        ; Put with Start: the thread goes on
        ecall
        addi a0, zero, 0
        addi a7, zero, 2        ; Get without options waits for it
        ecall
        lw s3, 0(s2)            ; 7 and 5
        addi a0, zero, 520
        lui a4, 2
        lui a5, 1
        ecall                   ; Get with Merge and Agree of the page
        lw a0, 0(s2)            ; 7, 5 and 9
        slli s3, s3, 20
        add a0, a0, s3
        addi a7, zero, 3        ; Ret
        ecall
kid:    addi t0, zero, 7
        sb t0, 0(s2)
        addi a7, zero, 3
        ecall
        addi t0, zero, 9
        sb t0, 2(s2)
        lw a0, 0(s2)            ; 7, 0 and 9
        ecall
.segment 0x2000 3
        .word 0
