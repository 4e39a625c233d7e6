; Sixteen megabytes, each page with a word that is not 0, copied whole into each of COUNT children by Put with Copy.
.segment 0x1000 1
        li a3, 0x10000000
        li a4, 0x10000000
        li a5, 0x1000000
        addi a1, zero, 0
        addi a7, zero, 2        ; Get
        li a0, 0x3010           ; Perm: may be read and written
        ecall
        li t1, 0x10000000
        li t2, 4096
        li t0, 4096
fill:   sw t0, 0(t1)
        add t1, t1, t2
        addi t0, t0, -1
        bne t0, zero, fill
        li t0, COUNT
        addi a7, zero, 1        ; Put
put:    beq t0, zero, end
        addi a0, zero, 2        ; Copy
        ecall
        addi a1, a1, 1
        addi t0, t0, -1
        jal zero, put
end:    addi a7, zero, 3        ; Ret
        ecall
