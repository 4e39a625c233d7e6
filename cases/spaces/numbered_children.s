; Makes children 0, 1, 2 and so on, until a Put is refused: numbers end at 65,535.
.segment 0x1000 1
        addi a1, zero, -1
next:   addi a1, a1, 1
        addi a7, zero, 1        ; Put
        addi a0, zero, 0        ; with no option: the child is made
        ecall
        jal zero, next
