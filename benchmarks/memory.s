; Passes over 64 KiB, word after word: each is loaded, added up and stored.
.segment 0x1000 1
        li t0, 1220
        addi a0, zero, 1
pass:   li t1, data
        li t2, 0x20000
word:   lw a2, 0(t1)
        add a0, a0, a2
        sw a0, 0(t1)
        addi t1, t1, 4
        bne t1, t2, word
        addi t0, t0, -1
        bne t0, zero, pass
        addi a7, zero, 3        ; Ret
        ecall
.segment 0x10000 3
data:   .zero 65536
