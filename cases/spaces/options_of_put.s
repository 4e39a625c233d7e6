; A child for each row of options. The child has, at 0x4000, a page with a 2 that may be read and written, and begins at `probe`: it loads that byte,
; stores it again and returns it. Then the row's Put: with Regs a block by which the child begins at `other` and returns its s3, with Copy a page with
; a 1 that may only be read, with Limit a limit of 2 events. A child that was not started by it is started by another Put. The last child is started
; twice, the second time without a limit, which it has no longer then. So the report tells what each option did.
;
;   s0  the row's number, which is the child's        s1  the row
.segment 0x1000 1
        addi s0, zero, 0
        li s1, rows
        lui a5, 1
next:   addi a1, s0, 0
        li a0, 0x5013           ; Regs, Copy and Perm 5
        lui a2, 3
        lui a3, 1
        lui a4, 1
        addi a7, zero, 1        ; Put: the code
        ecall
        li a0, 0x3012           ; Copy and Perm 3
        lui a3, 5
        lui a4, 4
        ecall                   ; the page with a 2
        lw a0, 0(s1)
        addi a2, a2, 136
        lui a3, 6
        addi a6, zero, 2
        ecall                   ; what the row says
        lw t0, 0(s1)
        andi t0, t0, 64
        bne t0, zero, begun
        addi a0, zero, 64       ; Start
        ecall
begun:  addi s0, s0, 1
        addi s1, s1, 4
        addi t0, zero, 11
        bne s0, t0, next
        addi a0, zero, 64       ; the last child goes on
        ecall
        addi a7, zero, 3        ; Ret
        ecall
probe:  lbu a0, 1(s2)
        sb a0, 1(s2)
        addi a7, zero, 3
        ecall
other:  addi a0, s3, 0
        addi a7, zero, 3
        ecall
rows:   .word 0
        .word 1                 ; Regs
        .word 2                 ; Copy
        .word 4                 ; Zero
        .word 0x2010            ; Perm 2
        .word 0x0012            ; Copy and Perm 0
        .word 0x1014            ; Zero and Perm 1
        .word 64                ; Start
        .word 192               ; Start and Limit
        .word 0x30d3            ; Regs, Copy, Perm 3, Start and Limit
        .word 192
.segment 0x3000 3
        .word probe             ; the first block: pc
        .zero 68
        .word 0x4000            ; s2
        .zero 60
        .word other             ; the second block
        .zero 68
        .word 0x4000            ; s2
        .word 0x77              ; s3
        .zero 60
.segment 0x5000 3
        .word 0x200
.segment 0x6000 1
        .word 0x100
