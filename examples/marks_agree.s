; Three threads go round a ring of twelve places, by steps of two, three and four, and mark each place that they come to. Some places are marked by
; several, all with the same mark. The root joins the threads with Agree, to which equal new values are no conflict, and shows the ring.
;
; The threads are forked by TFORK as ever. In the place of TJOIN stands Get with Regs, Merge and Agree over all below 0xC0000000. The register
; block, whose last two words say how the thread has stopped, lies outside of what is merged.
.segment 0x1000 1
        addi s0, zero, 0        ; the threads are children 0 to 2
        addi s1, zero, 3
fork:   addi a1, s0, 0
        addi a7, zero, 18       ; TFORK
        ecall
        bne a0, zero, walk      ; a0 is 1 in the thread, 0 in the root
        addi s0, s0, 1
        bne s0, s1, fork

        addi s0, zero, 0
        li a2, 0xC0400000       ; the register block
        addi a4, zero, 0
        lui a5, 0xC0000
join:   addi a1, s0, 0
        addi a7, zero, 2        ; Get
        addi a0, zero, 521      ; Regs 1, Merge 8, Agree 512
        ecall
        lw t0, 128(a2)          ; the number of its cause
        addi t1, zero, 20
        bne t0, t1, failed      ; 20 is ret
        addi s0, s0, 1
        bne s0, s1, join

        lui a1, 2
        addi a2, zero, 13
        addi a7, zero, 4        ; console out of the ring
        ecall
        addi a7, zero, 3        ; Ret
        ecall
failed: ebreak
walk:   addi t0, s0, 2          ; steps of two, three or four
        addi t1, zero, 0        ; the place
        addi t2, zero, 12
        lui t3, 2
        addi t4, zero, 120      ; x
mark:   add t5, t3, t1
        sb t4, 0(t5)
        add t1, t1, t0
        blt t1, t2, mark
        addi a7, zero, 3        ; Ret
        ecall
.segment 0x2000 3
        .word 0x2e2e2e2e        ; twelve dots and a line feed
        .word 0x2e2e2e2e
        .word 0x2e2e2e2e
        .byte 0x0a
.segment 0xC0400000 3
        .zero 136
