; The words of 64 KiB, each in the page after that of the word before: each is loaded, added up and stored.
.segment 0x1000 1
        li t0, 12500000
        addi a0, zero, 1
        li a1, 4100             ; a page and a word
        li a3, 0xfffc
        li a4, data
loop:   add t2, t1, a4
        lw a2, 0(t2)
        add a0, a0, a2
        sw a0, 0(t2)
        add t1, t1, a1
        and t1, t1, a3
        addi t0, t0, -1
        bne t0, zero, loop
        addi a7, zero, 3        ; Ret
        ecall
.segment 0x10000 3
data:   .zero 65536
