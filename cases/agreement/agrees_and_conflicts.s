; A middle thread forks a thread of its own, and both change bytes: at 0x2000 to one value; at 0x2041 to different values, which is in the next 64 bytes; and
; at 0x3000, on the next page, too. The thread alone changes 0x2001. A Get with Merge and Agree stops the middle thread at 0x2041, and
; changes nothing. The root takes the middle thread's page at 0x2000 by Get with Copy, and shows its first bytes.
.segment 0x1000 1
        lui s0, 2
        lui s1, 3
        addi a1, zero, 0
        addi a7, zero, 18       ; TFORK
        ecall
        bne a0, zero, middle
        addi a3, s0, 0
        addi a4, s0, 0
        lui a5, 1
        addi a0, zero, 2        ; Copy
        addi a7, zero, 2        ; Get
        ecall
        addi a1, s0, 0
        addi a2, zero, 3
        addi a7, zero, 4        ; console out
        ecall
        addi a7, zero, 3        ; Ret
        ecall
middle: addi a1, zero, 0
        addi a7, zero, 18       ; TFORK
        ecall
        bne a0, zero, thread
        addi t0, zero, 65
        addi t1, zero, 66
        sb t0, 0(s0)            ; A
        sb t1, 65(s0)           ; B
        sb t1, 0(s1)            ; B
        addi a4, s0, 0
        lui a5, 2
        addi a0, zero, 520      ; Merge and Agree
        addi a7, zero, 2        ; Get
        ecall
        ebreak
thread: addi t0, zero, 65
        addi t1, zero, 67
        sb t0, 0(s0)            ; A
        sb t0, 1(s0)            ; A
        sb t1, 65(s0)           ; C
        sb t1, 0(s1)            ; C
        addi a7, zero, 3        ; Ret
        ecall
.segment 0x2000 3
        .byte 0x2e              ; two dots and a line feed
        .byte 0x2e
        .byte 0x0a
.segment 0x3000 3
        .byte 0
