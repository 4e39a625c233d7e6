; A process for each row: a Put or a Get with Regs and Zero on child 7, whose register block of 136 bytes may be read or written as the row says.
; Where a byte of it may not, the process stops at the least such byte, and has no child 7. Where all may, it returns the byte of its own page: the 9
; that stood there behind a Put, whose child 7 is there, and 0 behind a Get.
;
;   s0  the row's number, which is the child's        s1  the row
.segment 0x1000 1
        addi s0, zero, 0
        li s1, rows
next:   addi a1, s0, 0
        addi a7, zero, 16       ; FORK
        ecall
        bne a0, zero, kid
        addi s0, s0, 1
        addi s1, s1, 8
        addi t0, zero, 13
        bne s0, t0, next
        addi a7, zero, 3        ; Ret
        ecall
kid:    addi a0, zero, 5        ; Regs and Zero
        addi a1, zero, 7
        lw a2, 4(s1)
        lui a4, 4
        lui a5, 1
        lw a7, 0(s1)
        ecall
        lbu a0, 0(a4)
        addi a7, zero, 3        ; Ret
        ecall
rows:   .word 1                 ; 0: Put: a block up to the end of its page
        .word 0x7f78
        .word 2                 ; Get
        .word 0x7f78
        .word 1                 ; 2: one word of it past the end, where nothing may be read
        .word 0x7f7c
        .word 2
        .word 0x7f7c
        .word 1                 ; 4: its first word before the page
        .word 0x6ffc
        .word 2
        .word 0x6ffc
        .word 1                 ; 6: over two pages
        .word 0xafc0
        .word 2
        .word 0xafc0
        .word 1                 ; 8: the last block of memory
        .word 0xffffff78
        .word 2
        .word 0xffffff78
        .word 1                 ; 10: Put of a block that may only be written is done nowhere, and Get of one that may only be read
        .word 0xd000
        .word 2
        .word 0xe000
        .word 2                 ; 12: Get of one that may only be written
        .word 0xd000
.segment 0x4000 3
        .byte 9
.segment 0x7000 3
        .zero 4096
.segment 0xa000 3
        .zero 8192
.segment 0xd000 2
        .zero 4096
.segment 0xe000 1
        .zero 4096
.segment 0xfffff000 3
        .zero 4096
