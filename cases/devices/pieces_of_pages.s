; Writes to the console what stands in one page, over two pages, at a page's end and in a page of zeros, and then nothing.
.segment 0x1000 1
        addi a7, zero, 4        ; console out
        lui a1, 2               ; 1: in one page
        addi a2, zero, 3
        ecall
        lui a1, 3               ; 2: over two pages
        addi a1, a1, -2
        addi a2, zero, 4
        ecall
        lui a1, 4               ; 3: the last byte of a page
        addi a1, a1, -1
        addi a2, zero, 1
        ecall
        lui a1, 4               ; 4: a page of zeros
        addi a2, zero, 2
        ecall
        addi a2, zero, 0        ; 5: nothing
        ecall
        addi a7, zero, 3        ; Ret
        ecall
.segment 0x2000 1
        .byte 97
        .byte 98
        .byte 99
        .zero 4091
        .byte 119
        .byte 120
        .byte 121
        .byte 122
        .zero 4093
        .byte 33
        .zero 2
