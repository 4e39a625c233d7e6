; Writes three instructions into a page of data, makes the page executable by a Get of its own, and runs them.
;
; With .dti2 a page has exactly the permission that its segment names: 1 to read, 2 to write, 4 to execute. The page at 0x2000 may be read and
; written, so what is written there is data: a jump to it would be a fetch-fault. Get with Perm gives it another permission.
.dti2
.segment 0x1000 5
        lui s0, 2
        li t0, 0x00700513       ; addi a0, zero, 7
        sw t0, 0(s0)
        li t0, 0x00300893       ; addi a7, zero, 3
        sw t0, 4(s0)
        li t0, 0x00000073       ; ecall
        sw t0, 8(s0)
        addi a4, s0, 0          ; the range of Perm: the page at 0x2000
        lui a5, 1
        li a0, 0x5010           ; Perm 16, and the permission to read and execute, in bits 12 to 14
        addi a1, zero, 0        ; a child that is missing: nothing is read of it
        addi a7, zero, 2        ; Get
        ecall
        jalr zero, 0(s0)        ; runs what it has written, which returns 7
.segment 0x2000 3
        .word 0
