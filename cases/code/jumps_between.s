; After a long loop, a jump to an address that is no multiple of 4.
.segment 0x1000 1
.entry start
loop:   addi a0, a0, 1
        addi t0, t0, -1
        bne t0, zero, loop
        addi s0, s0, 2
        jalr zero, 0(s0)
start:  li s0, 0x1000
        li t0, 1000
        jal zero, loop
