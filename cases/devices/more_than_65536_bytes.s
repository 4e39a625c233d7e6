; The first byte of the input is the number of a call: console out or console in. Of 65,536 bytes the call goes on, of one more it is a badcall.
.segment 0x1000 1
        lui s0, 0x10
        addi a1, s0, 0
        addi a2, zero, 1
        addi a7, zero, 5        ; console in
        ecall
        lbu a7, 0(s0)
        addi a1, s0, 0
        lui a2, 0x10
        ecall
        addi a1, s0, 0
        addi a2, a2, 1
        ecall
.segment 0x10000 3
        .zero 65537
