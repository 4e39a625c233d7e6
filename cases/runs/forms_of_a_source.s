.entry 4
.stack 8
.entry end                      ; the last one counts; a label may come later
.segment 0x500 3                # this segment has no bytes, and is left out
.segment 0x1000 1
bne x1, x2, 0x1008
.segment 0x2000 1
jal ra, 0x1ffc
.segment 0x3000 1
li a0, here
here:
.segment 0x4000 1
.word next
next: .segment 0x5000 1
        addi a7, zero, 3
        addi a0, zero, 7
        ecall
 lui t0, 0xFffff ; all ones
        auipc x1, 1
        jalr	zero , 4 ( ra )#
a:
b : beq x0,x0,b # back
        lw a0, -4(sp)
        sw a0, -0(sp)
        srai t6, t6, 31
        fence
        li a0, 0x800
        li a0, -1
        .word -2
        .byte 255
        .zero 2
.segment 0x6ffc 1
        .word 1
.segment 0x7000 3
        .byte 2
.segment 0xffffffff 1
        .byte 1
end:    .zero 0                 ; behind the last byte of memory is 0
