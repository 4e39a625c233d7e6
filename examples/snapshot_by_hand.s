; What TFORK and TJOIN do, done by Put and Get: two children on copies of two pages, with snapshots, whose changes are merged.
;
; Put with Copy gives a child the page of code and the page of data, with their permissions; with Snap it keeps its memory as it is
; then. Get with Merge brings the bytes of the data page that the child has changed since. The root writes a byte of its own meanwhile.
.segment 0x1000 1
        lui a2, 3               ; the register block, at 0x3000: outside of what is copied and merged
        addi s0, zero, 0
        addi s1, zero, 2
start:  addi a1, s0, 0
        sw s0, 32(a2)           ; the child's s0 is its number
        lui a3, 1
        lui a4, 1
        lui a5, 2
        addi a7, zero, 1        ; Put of the pages at 0x1000 and 0x2000
        addi a0, zero, 99       ; Regs 1, Copy 2, Snap 32, Start 64
        ecall
        addi s0, s0, 1
        bne s0, s1, start

        lui s2, 2
        addi t0, zero, 67
        sb t0, 2(s2)            ; the root writes C at 0x2002

        addi s0, zero, 0
        addi s3, zero, 0
join:   addi a1, s0, 0
        lui a4, 2
        lui a5, 1
        addi a7, zero, 2        ; Get of the page at 0x2000
        addi a0, zero, 9        ; Regs 1, Merge 8: waits until the child has stopped
        ecall
        lw t0, 132(a2)          ; its value
        add s3, s3, t0
        addi s0, s0, 1
        bne s0, s1, join

        addi a1, s2, 0
        addi a2, zero, 5
        addi a7, zero, 4        ; console out of ABCD and a line feed
        ecall
        addi a0, s3, 0          ; the sum of what the children return
        addi a7, zero, 3        ; Ret
        ecall

child:  lui t0, 2
        add t0, t0, s0
        addi t1, s0, 65
        sb t1, 0(t0)            ; child 0 writes A at 0x2000, child 1 B at 0x2001
        addi a0, t1, 0
        addi a7, zero, 3
        ecall
.segment 0x2000 3
        .byte 0x2e              ; three dots, D, and a line feed
        .byte 0x2e
        .byte 0x2e
        .byte 0x44
        .byte 0x0a
.segment 0x3000 3
        .word child
        .zero 132
