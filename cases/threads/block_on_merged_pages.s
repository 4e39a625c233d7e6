; A Get with Merge and Regs whose register block stands on the two pages that are merged, over a byte that the child has changed there: both
; pages have the child's other bytes, and the block stands over its byte. The root returns, from the low byte on: the byte of the block that
; is the child's x12, the first byte of the pages, their last, and the value in the block.
.segment 0x1000 1
        lui s2, 2
        addi a1, zero, 1
        addi a7, zero, 18       ; TFORK
        ecall
        bne a0, zero, kid
        addi a0, zero, 9
        lui a2, 3
        addi a2, a2, -64        ; the block from 0x2FC0 to before 0x3048
        lui a4, 2
        lui a5, 2
        addi a7, zero, 2        ; Get
        ecall
        lbu a0, 48(a2)          ; 0x2FF0
        lbu t0, 0(s2)
        slli t0, t0, 8
        add a0, a0, t0
        lui t0, 4
        lbu t0, -1(t0)          ; 0x3FFF
        slli t0, t0, 16
        add a0, a0, t0
        lbu t0, 132(a2)
        slli t0, t0, 24
        add a0, a0, t0
        addi a7, zero, 3        ; Ret
        ecall
kid:    addi t0, zero, 8
        sb t0, 0(s2)
        lui t1, 3
        addi t0, zero, 7
        sb t0, -16(t1)          ; 0x2FF0
        lui t1, 4
        addi t0, zero, 9
        sb t0, -1(t1)           ; 0x3FFF
        addi a2, zero, 85
        addi a7, zero, 3
        ecall
.segment 0x2000 3
        .zero 0x2000
