; A thread's files have no base: it writes a file that the root has made before, and behind the WAIT of it that file is in conflict (5), as it would not be of a
; process. A file that only the thread has made comes to the root. The root returns what FLEN gives of both.
.segment 0x1000 1
        lui s0, 2
        addi a1, s0, 0
        addi a2, zero, 1
        addi a3, zero, 0
        addi a7, zero, 24       ; FNEW of "f"
        ecall
        addi a1, zero, 1
        addi a7, zero, 18       ; TFORK
        ecall
        bne a0, zero, thread
        addi a7, zero, 17       ; WAIT
        ecall
        addi a1, s0, 0
        addi a2, zero, 1
        addi a7, zero, 27       ; FLEN of "f"
        ecall
        slli s1, a0, 4
        addi a1, s0, 1
        ecall                   ; FLEN of "g"
        add a0, a0, s1
        addi a7, zero, 3        ; Ret
        ecall
thread: addi a1, s0, 0
        addi a2, zero, 1
        addi a3, s0, 0
        addi a4, zero, 2
        addi a5, zero, 0
        addi a7, zero, 25       ; FPUT of "f"
        ecall
        addi a1, s0, 1
        addi a3, zero, 0
        addi a7, zero, 24       ; FNEW of "g"
        ecall
        addi a7, zero, 3
        ecall
.segment 0x2000 1
        .byte 0x66
        .byte 0x67
