; Jumps into a page that may be read and written, where an instruction stands.
.dti2
.segment 0x1000 5
        lui t0, 2
        jalr zero, 0(t0)
.segment 0x2000 3
        ecall
