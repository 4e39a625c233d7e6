; A load from a page that may not be read: its base was set long before.
.segment 0x1000 1
        lui s0, 5
        addi t0, zero, 100
spin:   addi t0, t0, -1
        bne t0, zero, spin
        lw a0, 8(s0)
