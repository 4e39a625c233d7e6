; Code that may be written and executed, and not read, writes its next instruction.
.dti2
.segment 0x1000 5
        lui t0, 2
        li t1, 0x00900513       ; addi a0, zero, 9
        addi a7, zero, 3        ; Ret
        jalr zero, 0(t0)
.segment 0x2000 6
        sw t1, 4(t0)
        addi a0, zero, 8
        ecall
