; The child never runs: its byte was put there by the root, behind its snapshot, so no event of its own changed it.
.segment 0x1000 1
        addi a0, zero, 32       ; Snap
        addi a1, zero, 3
        addi a7, zero, 1        ; Put of child 3
        ecall
        lui s0, 2
        sb a1, 0(s0)            ; the root's own byte
        addi a0, zero, 2        ; Copy
        lui a3, 2
        lui a4, 2
        lui a5, 1
        ecall                   ; Put: the child's page is a copy of the root's
        addi a0, zero, 8        ; Merge
        addi a7, zero, 2        ; Get
        ecall
.segment 0x2000 3
        .zero 4
