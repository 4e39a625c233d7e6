; Five hundred turns of a loop, each with a Get. The last one takes from the loop's own page the permission to execute, so the next fetch fails.
.dti2
.segment 0x1000 5
        lui a4, 1
        lui a5, 1
        li t0, 0x1010           ; Perm, and the permission to read
        li t1, 500
        addi a7, zero, 2        ; Get
loop:   addi a0, zero, 0        ; no option
        addi t1, t1, -1
        bne t1, zero, call
        addi a0, t0, 0
call:   ecall
        addi t2, t2, 1
        jal zero, loop
