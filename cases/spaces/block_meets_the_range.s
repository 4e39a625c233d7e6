; Get with Regs beside another change of the caller's memory: the 136 bytes of the block stand behind the change, wherever they lie. Across an end of
; the range with Zero, within it with Copy, with Zero and Perm, and with Merge and Perm. The cause of a child that has never run, 21, is
; word 32 of the block. Each line of sums adds what stands where it should be 0 too.
        .segment 0x1000 1
        li s0, 0x10000
        li s5, 0x11000
        li s6, 0x12000
        li s7, 0x13000
        ; Zero of the page 0x11000, the block from 0x10fc0 to before 0x11048; child 1 is missing
        addi t1, zero, 7
        sw t1, -68(s5)          ; 0x10fbc, right before the block
        addi t1, zero, -1
        sw t1, -4(s5)           ; within the block, before the range
        sw t1, 0(s5)            ; within both
        sw t1, 72(s5)           ; 0x11048, right behind the block
        addi t1, zero, 9
        sw t1, 0(s6)            ; behind the range
        addi a0, zero, 5
        addi a1, zero, 1
        addi a2, s5, -64
        addi a4, s5, 0
        li a5, 4096
        addi a7, zero, 2
        ecall
        lw s1, 64(s5)           ; 21
        lw t1, -68(s5)          ; 7
        slli t1, t1, 8
        add s1, s1, t1
        lw t1, 0(s6)            ; 9
        slli t1, t1, 16
        add s1, s1, t1
        lw t1, -4(s5)
        add s1, s1, t1
        lw t1, 0(s5)
        add s1, s1, t1
        lw t1, 72(s5)
        add s1, s1, t1          ; 0x90715
        ; child 1 gets the page 0x12000 as its page 0x13000
        addi a0, zero, 2
        addi a3, s6, 0
        addi a4, s7, 0
        addi a7, zero, 1
        ecall
        ; Copy of that page to 0x11000, the block at 0x11100
        addi a0, zero, 3
        addi a2, s5, 256
        addi a3, s7, 0
        addi a4, s5, 0
        addi a7, zero, 2
        ecall
        lw t1, 0(s5)            ; 9
        add s1, s1, t1
        lw t1, 384(s5)          ; 21
        slli t1, t1, 8
        add s1, s1, t1
        lw t1, 392(s5)          ; right behind the block
        add s1, s1, t1          ; 0x1509 more
        ; Zero of the page and permission 1, the block at the same place
        li a0, 0x1015
        ecall
        lw t1, 0(s5)
        add s1, s1, t1
        lw t1, 384(s5)          ; 21
        slli t1, t1, 8
        add s1, s1, t1          ; 0x1500 more
        ; the child has 9 at 0x13000 in its snapshot, and 0 now; the caller has 9
        addi t1, zero, 9
        sw t1, 0(s7)
        addi a0, zero, 32
        addi a7, zero, 1
        ecall
        addi a0, zero, 4
        addi a4, s7, 0
        ecall
        ; Merge of that page and permission 3, the block at 0x13100
        li a0, 0x3019
        addi a2, s7, 256
        addi a7, zero, 2
        ecall
        lw t1, 0(s7)            ; 0
        add s1, s1, t1
        lw t1, 384(s7)          ; 21
        slli t1, t1, 8
        add s1, s1, t1          ; 0x1500 more
        sw t1, 0(s7)
        addi a0, s1, 0
        addi a7, zero, 3
        ecall                   ; 0x9461e
        .segment 0x10000 3
        .zero 16384
