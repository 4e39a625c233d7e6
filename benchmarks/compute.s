; A xorshift generator in registers, whose numbers are added up; one branch depends on them.
.segment 0x1000 1
        li t0, 19000000
        addi t1, zero, 1
loop:   slli t2, t1, 13
        xor t1, t1, t2
        srli t2, t1, 17
        xor t1, t1, t2
        slli t2, t1, 5
        xor t1, t1, t2
        add a0, a0, t1
        blt t1, zero, next
        addi a0, a0, 1
next:   addi t0, t0, -1
        bne t0, zero, loop
        addi a7, zero, 3        ; Ret
        ecall
.segment 0x10000 3
        .zero 65536
