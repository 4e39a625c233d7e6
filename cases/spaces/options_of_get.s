; A process for each row of options. It has, at 0x4000, a page with a 2 that may be read and written. It makes child 1, which has at 0x7000 a page
; with a 1 that may only be read, and which stops at once, since its pc is 0x04030200 and nothing may be fetched there. Then it makes the row's Get,
; with the page of the child as source and its own as destination, loads the byte, stores it again and returns it; it ends at a breakpoint where its
; register block is not the child's with Regs, or no longer empty without. So the report tells what each option did.
;
;   s0  the row's number, which is the child's        s1  the row
.segment 0x1000 1
        addi s0, zero, 0
        li s1, rows
next:   addi a1, s0, 0
        addi a7, zero, 16       ; FORK
        ecall
        bne a0, zero, kid
        addi s0, s0, 1
        addi s1, s1, 4
        addi t0, zero, 8
        bne s0, t0, next
        addi a7, zero, 3        ; Ret
        ecall
kid:    li a0, 0x1053           ; Regs, Copy, Perm 1 and Start
        addi a1, zero, 1
        lui a2, 5
        lui a3, 6
        lui a4, 7
        lui a5, 1
        addi a7, zero, 1        ; Put
        ecall
        lw a0, 0(s1)
        lui a2, 3
        lui a3, 7
        lui a4, 4
        addi a7, zero, 2        ; Get: what the row says
        ecall
        addi t0, zero, 34
        lui a3, 8               ; the block that is to come: an empty one, or with Regs the child's
        lw t1, 0(s1)
        andi t1, t1, 1
        beq t1, zero, look
        lui a3, 5
look:   lw t1, 0(a2)
        lw t2, 0(a3)
        bne t1, t2, other
        addi a2, a2, 4
        addi a3, a3, 4
        addi t0, t0, -1
        bne t0, zero, look
        lui s2, 4
        lbu a0, 1(s2)
        sb a0, 1(s2)
        addi a7, zero, 3
        ecall
other:  ebreak
rows:   .word 0
        .word 1                 ; Regs
        .word 2                 ; Copy
        .word 4                 ; Zero
        .word 0x2010            ; Perm 2
        .word 0x0012            ; Copy and Perm 0
        .word 0x1014            ; Zero and Perm 1
        .word 0x7013            ; Regs, Copy and Perm 7
.segment 0x3000 3
        .zero 136
.segment 0x4000 3
        .word 0x200
.segment 0x5000 1
        .word 0x04030200        ; the child's block: pc
        .word 5                 ; x1
        .zero 116
        .word 6                 ; x31
        .word 1                 ; a fetch that is refused
        .word 0x04030200
.segment 0x6000 1
        .word 0x100
.segment 0x8000 1
        .zero 136
