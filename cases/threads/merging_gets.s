; A process for each row: it has a child that writes 7 and 8 at 0x2000, where 3 and 0 stand, and returns 9. The child is a thread, but in the last
; rows a process, which has no snapshot, or it is missing. The process may have written there as well. Then it makes the row's Get of the page and
; returns the two bytes, and above them the value in its register block, which is at 0x4000 or, where it may not be written, at 0x5000. Before it
; returns it stores the first byte again.
;
;   s0  the row's number, which is the process's        s1  the row: options, block, size, the byte that the process writes, TFORK or FORK
.segment 0x1000 1
        addi s0, zero, 0
        li s1, rows
next:   addi a1, s0, 0
        addi a7, zero, 16       ; FORK
        ecall
        bne a0, zero, kid
        addi s0, s0, 1
        addi s1, s1, 20
        addi t0, zero, 17
        bne s0, t0, next
        addi a7, zero, 3        ; Ret
        ecall
kid:    lui s2, 2
        addi a1, zero, 1
        lw a7, 16(s1)
        beq a7, zero, none
        ecall                   ; TFORK or FORK
        bne a0, zero, child
none:   lw t0, 12(s1)
        sb t0, 0(s2)
        lw a0, 0(s1)
        lw a2, 4(s1)
        addi a4, s2, 0
        lw a5, 8(s1)
        addi a7, zero, 2        ; Get
        ecall
        lui t0, 4
        lw t0, 132(t0)          ; the value in the block
        slli t0, t0, 16
        lhu a0, 0(s2)
        add a0, a0, t0
        sb a0, 0(s2)
        addi a7, zero, 3        ; Ret
        ecall
child:  addi t0, zero, 7
        sb t0, 0(s2)
        addi t0, zero, 8
        sb t0, 1(s2)
        addi a0, zero, 9
        addi a7, zero, 3
        ecall
rows:   .word 8          ; 0: Merge: both bytes come
        .word 0
        .word 0x1000
        .word 3
        .word 18
        .word 9          ; 1: with Regs, whose block is written behind the merge
        .word 0x4000
        .word 0x1000
        .word 3
        .word 18
        .word 0x1018     ; 2: with Perm 1: the page may only be read then
        .word 0
        .word 0x1000
        .word 3
        .word 18
        .word 8          ; 3: of no page
        .word 0
        .word 0
        .word 3
        .word 18
        .word 8          ; 4: of no page, where both wrote
        .word 0
        .word 0
        .word 4
        .word 18
        .word 8          ; 5: both wrote: a conflict
        .word 0
        .word 0x1000
        .word 4
        .word 18
        .word 0x1018     ; 6: the same with Perm
        .word 0
        .word 0x1000
        .word 4
        .word 18
        .word 9          ; 7: the same with Regs
        .word 0x4000
        .word 0x1000
        .word 4
        .word 18
        .word 9          ; 8: a block that may not be written comes before the conflict
        .word 0x5000
        .word 0x1000
        .word 4
        .word 18
        .word 8          ; 9: equal new bytes are a conflict
        .word 0
        .word 0x1000
        .word 7
        .word 18
        .word 520        ; 10: but not with Agree, where the other byte comes too
        .word 0
        .word 0x1000
        .word 7
        .word 18
        .word 0x1218     ; 11: with Agree and Perm 1
        .word 0
        .word 0x1000
        .word 7
        .word 18
        .word 521        ; 12: with Agree and Regs
        .word 0x4000
        .word 0x1000
        .word 7
        .word 18
        .word 520        ; 13: other new bytes are a conflict with Agree as well
        .word 0
        .word 0x1000
        .word 4
        .word 18
        .word 9          ; 14: no snapshot comes before the block
        .word 0x5000
        .word 0x1000
        .word 4
        .word 16
        .word 9          ; 15: a block at no multiple of 4 before the snapshot
        .word 2
        .word 0x1000
        .word 4
        .word 16
        .word 520        ; 16: a missing child has no snapshot
        .word 0
        .word 0x1000
        .word 4
        .word 0
.segment 0x2000 3
        .byte 3
        .byte 0
.segment 0x4000 3
        .zero 136
.segment 0x5000 1
        .zero 136
