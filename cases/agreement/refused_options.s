; Ten processes, of which each makes one call on a child that is missing: its number and its options stand in a table.
.segment 0x1000 1
        addi s0, zero, 0
        lui s1, 2
next:   addi a1, s0, 0
        addi a7, zero, 16       ; FORK
        ecall
        bne a0, zero, child
        addi s0, s0, 1
        addi s1, s1, 8
        addi t0, zero, 10
        bne s0, t0, next
        addi a7, zero, 3        ; Ret
        ecall
child:  lw a7, 0(s1)
        lw a0, 4(s1)
        addi a1, zero, 0
        ecall
        addi a7, zero, 3        ; Ret
        ecall
.segment 0x2000 1
        .word 2                 ; Get with Merge and Agree of a child that has no snapshot
        .word 520
        .word 2                 ; Agree alone
        .word 512
        .word 2                 ; with Copy
        .word 514
        .word 2                 ; with Merge and Copy
        .word 522
        .word 2                 ; with Zero
        .word 516
        .word 1                 ; Put with Merge and Agree
        .word 520
        .word 1                 ; Put with Agree alone
        .word 512
        .word 2                 ; the bit above Agree
        .word 0x408
        .word 1                 ; a permission without Perm
        .word 0x4000
        .word 1                 ; a bit above the permission
        .word 0x8010
