; The same of a stack that may be executed too.
.dti2
.stack 0xFFFFFFF0
.segment 0x1000 5
        li t0, 0x00300893       ; addi a7, zero, 3
        sw t0, -8(sp)
        li t0, 0x00000073       ; ecall
        sw t0, -4(sp)
        addi sp, sp, -8
        addi a0, zero, 7
        jalr zero, 0(sp)
.segment 0xFFFFF000 7
        .byte 0
