; Starts a thread, which writes a byte, and joins it.
.segment 0x1000 1
        lui s0, 3               ; a page that may be written
        addi a7, zero, 18       ; TFORK of child 0
        ecall
        beq a0, zero, parent
        sb a0, 0(s0)            ; the thread's a0 is 1
        addi a7, zero, 3        ; Ret
        ecall
parent: addi a7, zero, 19       ; TJOIN of child 0
        ecall
        addi a7, zero, 3        ; Ret
        ecall
.segment 0x3000 3
        .word 0
