; The last two bytes of the buffer stand in a page that may only be read. One byte of input is there, but the whole buffer has to be writable.
.segment 0x1000 1
        lui a1, 3
        addi a1, a1, -2
        addi a2, zero, 4
        addi a7, zero, 5        ; console in
        ecall
.segment 0x2000 3
        .zero 1
.segment 0x3000 1
        .zero 1
