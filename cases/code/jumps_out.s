; After a long loop, a jump to a page that may not be fetched.
.segment 0x1000 1
.entry start
loop:   addi a0, a0, 1
        addi t0, t0, -1
        bne t0, zero, loop
        jal zero, 0x5000
start:  li t0, 1000
        jal zero, loop
