; Stops by a trap: a load of a word from an odd address.
.segment 0x1000 1
        addi t0, zero, 1
        lw t1, 0(t0)
