; Each space counts one up in t0 and starts child 1 on a copy of its page, which has the count in its register block; the third makes no child.
; Nobody waits: each returns its own count, and all are run at the end.
.segment 0x1000 3
        addi t1, zero, 2
        beq t0, t1, last
        addi t0, t0, 1
        lui s0, 1
        sw t0, 276(s0)          ; t0 in the child's registers
        lui a0, 7
        addi a0, a0, 83         ; Regs, Copy, Perm and Start, and the permission 7
        addi a1, zero, 1
        lui a2, 1
        addi a2, a2, 256        ; the register block, at 0x1100
        lui a3, 1
        lui a4, 1
        lui a5, 1
        addi a7, zero, 1        ; Put
        ecall
last:   addi a0, t0, 0
        addi a7, zero, 3        ; Ret
        ecall
        .zero 184               ; up to 0x1100
        .word 0x1000
        .zero 132
