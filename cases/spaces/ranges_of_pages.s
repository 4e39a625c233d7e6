; Zeros and copies of ranges that begin and end within blocks of 64 and of 8,192 pages, at their borders, and at the end of memory. The root may read
; and write all pages from 0x02000000 on, and marks some at those borders with their own number. For each row a process has a child with the same
; memory and makes the row's Get from it. Then it looks at each marked page: outside of the range it has its number still, in it 0, or with Copy the
; number of the page that was copied there, if that one was marked. It ends at a breakpoint where something else stands.
;
;   s0  the row's number, which is the process's        s2  the place of a mark
;   s1  the row: options, the first page, how many, the first page of the source
.segment 0x1000 1
        li a0, 0x3010           ; Perm 3
        addi a1, zero, 0
        lui a4, 0x2000
        lui a5, 0xfe000
        addi a7, zero, 2        ; Get
        ecall
        li s2, marks
        li s3, rows
mark:   lw t0, 0(s2)
        slli t1, t0, 12
        sw t0, 0(t1)
        addi s2, s2, 4
        bne s2, s3, mark
        addi s0, zero, 0
        addi s1, s3, 0
next:   addi a1, s0, 0
        addi a7, zero, 16       ; FORK
        ecall
        bne a0, zero, kid
        addi s0, s0, 1
        addi s1, s1, 16
        addi t0, zero, 14
        bne s0, t0, next
        addi a7, zero, 3        ; Ret
        ecall
kid:    addi a1, zero, 1
        addi a7, zero, 16
        ecall
        bne a0, zero, end
        lw a0, 0(s1)
        lw a4, 4(s1)
        slli a4, a4, 12
        lw a5, 8(s1)
        slli a5, a5, 12
        lw a3, 12(s1)
        slli a3, a3, 12
        addi a7, zero, 2        ; Get
        ecall
        li s2, marks
look:   lw t0, 0(s2)
        slli t1, t0, 12
        lw t2, 0(t1)            ; what stands there
        lw t3, 4(s1)
        sub t3, t0, t3          ; the place in the range
        lw t4, 8(s1)
        bgeu t3, t4, same
        addi t0, zero, 0
        lw t4, 0(s1)
        andi t4, t4, 4
        bne t4, zero, same      ; Zero
        lw t4, 12(s1)
        add t3, t3, t4          ; the page of the source
        li t4, marks
find:   lw t5, 0(t4)
        bne t5, t3, far
        addi t0, t3, 0
far:    addi t4, t4, 4
        bne t4, s3, find
same:   bne t0, t2, other
        addi s2, s2, 4
        bne s2, s3, look
end:    addi a0, zero, 0
        addi a7, zero, 3
        ecall
other:  ebreak
marks:  .word 8192
        .word 8193
        .word 8255
        .word 8256
        .word 8319
        .word 8320
        .word 16383
        .word 16384
        .word 16447
        .word 1048511
        .word 1048512
        .word 1048575
rows:   .word 4                 ; 0: Zero of no page
        .word 8192
        .word 0
        .word 0
        .word 4                 ; within a block, and up to its end
        .word 8193
        .word 63
        .word 0
        .word 4                 ; over its border
        .word 8255
        .word 2
        .word 0
        .word 4                 ; a block
        .word 8256
        .word 64
        .word 0
        .word 4                 ; 4: 8,192 pages
        .word 8192
        .word 8192
        .word 0
        .word 4                 ; from within one block to within another, far behind
        .word 8193
        .word 1040318
        .word 0
        .word 4                 ; the last page
        .word 1048575
        .word 1
        .word 0
        .word 2                 ; 7: Copy of a block
        .word 8320
        .word 64
        .word 8256
        .word 2                 ; one page up, over a border
        .word 8256
        .word 64
        .word 8255
        .word 2                 ; one page down
        .word 8192
        .word 64
        .word 8193
        .word 2                 ; 10: by 8,192 pages, up to within a block
        .word 16384
        .word 8193
        .word 8192
        .word 2                 ; the last block
        .word 1048512
        .word 64
        .word 16384
        .word 0x3014            ; 12: Zero and Perm 3, from within one block to within another, far behind
        .word 8193
        .word 1040318
        .word 0
        .word 0x3012            ; Copy and Perm 3, by 8,192 pages, up to within a block
        .word 16384
        .word 8193
        .word 8192
