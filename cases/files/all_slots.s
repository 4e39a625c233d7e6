; There are 64 slots, and files take the lowest free one. The root makes files "@a" to "\x7fa"; the next has no slot. A deleted file keeps its slot,
; and gets it again. A process then makes one file, which finds no slot at the WAIT, and writes another, which the root has. The root ends at a
; breakpoint where a call gives anything else; it returns how many files WAIT has left out.
;
;   s0  the name        s1  the number of the file        s3  what a call is to give in a0
.segment 0x1000 1
        li a0, 0x3010           ; Perm 3
        addi a1, zero, 0
        lui a4, 0xc0000
        lui a5, 0x400
        addi a7, zero, 2        ; Get: the slots may be read and written
        ecall
        lui s0, 2
        addi s1, zero, 0
        addi s3, zero, 0
fill:   addi t0, s1, 64
        sb t0, 0(s0)
        addi a3, zero, 0
        addi a7, zero, 24       ; FNEW
        jal ra, ask
        slli t0, s1, 16
        lui t1, 0xc0000
        add t0, t0, t1
        lw t1, 28(t0)           ; the name that stands in the slot of this number
        lw t0, 0(s0)
        bne t0, t1, other
        addi s1, s1, 1
        addi t0, zero, 64
        bne s1, t0, fill
        addi t0, zero, 42
        sb t0, 0(s0)
        addi s3, zero, 3
        addi a7, zero, 24       ; FNEW of "*a": there is no slot
        jal ra, ask
        addi s3, zero, 0
        addi t0, zero, 67
        sb t0, 0(s0)
        addi a7, zero, 28       ; FDEL of "Ca"
        jal ra, ask
        addi t0, zero, 42
        sb t0, 0(s0)
        addi s3, zero, 3
        addi a7, zero, 24       ; FNEW of "*a": there is none still
        jal ra, ask
        addi s3, zero, 0
        addi t0, zero, 67
        sb t0, 0(s0)
        addi a7, zero, 24       ; FNEW of "Ca"
        jal ra, ask
        lui t0, 0xc0030
        lw t1, 4(t0)
        addi t2, zero, 3
        bne t1, t2, other       ; it is version 3 of what stood in slot 3
        addi a1, zero, 0
        addi a7, zero, 16       ; FORK
        ecall
        bne a0, zero, kid
        addi a7, zero, 17       ; WAIT
        ecall
        addi s4, a3, 0          ; one was left out
        addi a7, zero, 27       ; FLEN of "Ca"
        jal ra, ask
        addi t0, zero, 2
        bne a1, t0, other
        addi a0, s4, 0
        addi a7, zero, 3        ; Ret
        ecall
kid:    addi a7, zero, 28       ; FDEL of "Ca", whose slot the process gives to no other name
        jal ra, ask
        addi a7, zero, 24       ; FNEW of it
        jal ra, ask
        addi a3, s0, 0
        addi a4, zero, 2
        addi a5, zero, 0
        addi a7, zero, 25       ; FPUT of 2 bytes
        jal ra, ask
        lui t0, 0xc0000
        sw zero, 0(t0)          ; its slot 0 is free again
        addi t0, zero, 42
        sb t0, 0(s0)
        addi a3, zero, 0
        addi a7, zero, 24       ; FNEW of "*a"
        jal ra, ask
        addi a7, zero, 3
        ecall
ask:    addi a1, s0, 0
        addi a2, zero, 2
        ecall
        bne a0, s3, other
        jalr zero, 0(ra)
other:  ebreak
.segment 0x2000 3
        .byte 0
        .byte 0x61
        .zero 2
