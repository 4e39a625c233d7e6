; Loads from its own code, which may only be executed.
.dti2
.segment 0x1000 5
        lui t0, 2
        jalr zero, 0(t0)
.segment 0x2000 4
        addi a0, zero, 7
        lw a0, 0(t0)
