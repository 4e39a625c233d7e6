; Calls a loop on another page, takes from that page the permission to execute, by a Get of its own, and calls it again.
.dti2
.segment 0x1000 5
        lui s0, 3
        li t0, 2000
        jalr ra, 0(s0)
        addi a4, s0, 0
        lui a5, 1
        li a0, 0x3010           ; Perm, and the permission to read and write
        addi a7, zero, 2        ; Get
        ecall
        addi t0, zero, 1
        jalr ra, 0(s0)
.segment 0x3000 5
loop:   addi t0, t0, -1
        bne t0, zero, loop
        jalr zero, 0(ra)
