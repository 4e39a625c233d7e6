; Leaves pages of every kind: code that may be fetched; a page of zeros with a permission; one with a byte and no permission; one of zeros that had a
; byte and has neither now; and the last page of memory, with its first and its last byte.
.segment 0x1000 1
        lui t0, 4
        sb zero, 0(t0)          ; the byte at 0x4000 is 0 again
        addi t1, zero, 9
        sb t1, -1348(t0)        ; 9 at 0x3abc
        addi t1, zero, 4
        lui t0, 0xfffff
        sb t1, 0(t0)            ; 4 at 0xfffff000
        addi t1, zero, 5
        sb t1, -1(zero)         ; 5 at 0xffffffff
        addi a0, zero, 16       ; Perm, and the permission 0
        lui a4, 3
        lui a5, 2
        addi a7, zero, 2        ; Get of a missing child: the root's pages at 0x3000 and 0x4000
        ecall
        addi a7, zero, 3        ; Ret
        ecall
.segment 0x2000 3
        .zero 1
.segment 0x3000 3
        .zero 1
.segment 0x4000 3
        .byte 7
.segment 0xfffff000 3
        .zero 1
