; A thread and the root change bytes of a page, some both to one value. A Get with Merge and Agree, and with Perm and Regs, brings what the thread has
; changed alone; done once more it changes nothing, since the snapshot stays. The root shows the bytes, and returns the thread's value.
.segment 0x1000 1
        lui s0, 2
        addi a1, zero, 0
        addi a7, zero, 18       ; TFORK
        ecall
        bne a0, zero, thread
        addi t0, zero, 65
        sb t0, 1(s0)            ; A at 1, as the thread
        sb t0, 2(s0)            ; A at 2, where the thread puts back what stood there
        addi t0, zero, 66
        sb t0, 3(s0)            ; B at 3, which the thread leaves
        addi a4, s0, 0
        lui a5, 1
        lui a2, 3               ; the register block
        li a0, 0x7219           ; Regs 1, Merge 8, Perm 16, Agree 512; the permission 7
        addi a7, zero, 2        ; Get
        ecall
        li a0, 0x209            ; Regs, Merge and Agree
        ecall
        lw s1, 132(a2)          ; the thread's value
        addi a1, s0, 0
        addi a2, zero, 6
        addi a7, zero, 4        ; console out
        ecall
        addi a0, s1, 0
        addi a7, zero, 3        ; Ret
        ecall
thread: addi t0, zero, 65
        sb t0, 1(s0)            ; A at 1
        sb t0, 2(s0)
        lb t1, 0(s0)
        sb t1, 2(s0)            ; the dot is back at 2
        addi t0, zero, 67
        sb t0, 4(s0)            ; C at 4, which the root leaves
        addi a0, zero, 9
        addi a7, zero, 3        ; Ret
        ecall
.segment 0x2000 3
        .word 0x2e2e2e2e        ; dots and a line feed
        .byte 0x2e
        .byte 0x0a
.segment 0x3000 3
        .zero 136
