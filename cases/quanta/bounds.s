; QSTART and QCOMMIT with a1, a2 and a3 at their bounds, each by a child of the root that does nothing but this call, at 0x10000: the report has the
; number of the first test that fails. Where none fails the child ends behind its call by its limit of one event, and has no child: neither call makes one.
;
;   s0  the row's number, which is the child's        s1  the call's number        s2  the registers of the child
.segment 0x1000 1
        addi s0, zero, 0
        lui s2, 0x30
        li t0, 0x10000
        sw t0, 0(s2)            ; pc
        addi s1, zero, 20       ; QSTART
        addi a1, zero, 0
        addi a2, zero, 1
        addi a3, zero, 1
        jal ra, try             ; 0: the least of each: none fails
        addi a1, zero, 0
        addi a2, zero, 0
        addi a3, zero, 1
        jal ra, try             ; 1: a row of no numbers
        addi a1, zero, 0
        addi a2, zero, 64
        addi a3, zero, 1
        jal ra, try             ; 2: of 64: none fails
        addi a1, zero, 0
        addi a2, zero, 65
        addi a3, zero, 1
        jal ra, try             ; 3: of 65
        addi a1, zero, 0
        addi a2, zero, 257
        addi a3, zero, 1
        jal ra, try             ; 4: of 257
        addi a1, zero, 0
        li a2, 0xffffffff
        addi a3, zero, 1
        jal ra, try             ; 5: of 2^32 - 1
        addi a1, zero, 0
        addi a2, zero, 1
        addi a3, zero, 0
        jal ra, try             ; 6: no quantum
        addi a1, zero, 0
        addi a2, zero, 1
        li a3, 0xffffffff
        jal ra, try             ; 7: the greatest quantum: none fails
        li a1, 65535
        addi a2, zero, 1
        addi a3, zero, 1
        jal ra, try             ; 8: the last number: none fails
        li a1, 65535
        addi a2, zero, 2
        addi a3, zero, 1
        jal ra, try             ; 9: one number more
        li a1, 65472
        addi a2, zero, 64
        addi a3, zero, 1
        jal ra, try             ; 10: the last 64 numbers: none fails
        li a1, 65473
        addi a2, zero, 64
        addi a3, zero, 1
        jal ra, try             ; 11: one number more
        li a1, 0x10000
        addi a2, zero, 1
        addi a3, zero, 1
        jal ra, try             ; 12: no child number
        li a1, 0x10000
        addi a2, zero, 0
        addi a3, zero, 1
        jal ra, try             ; 13: nor a row: 2 comes before 3
        li a1, 0x10000
        addi a2, zero, 1
        addi a3, zero, 0
        jal ra, try             ; 14: nor a quantum: 2 comes before 3
        li a1, 0xffffffff
        addi a2, zero, 1
        addi a3, zero, 1
        jal ra, try             ; 15: 2^32 - 1, to which 1 adds up to 0
        li a1, 0xffffffff
        addi a2, zero, 64
        addi a3, zero, 1
        jal ra, try             ; 16: and 64 to 63
        li a1, 0xffffffff
        li a2, 0xffffffff
        li a3, 0xffffffff
        jal ra, try             ; 17: 2^32 - 1 each: 2 comes before 3
        addi s1, zero, 21       ; QCOMMIT
        addi a1, zero, 0
        addi a2, zero, 1
        addi a3, zero, 0
        jal ra, try             ; 18: the least of each; there is no quantum in a3: none fails
        addi a1, zero, 0
        addi a2, zero, 0
        addi a3, zero, 1
        jal ra, try             ; 19: a row of no numbers
        addi a1, zero, 0
        addi a2, zero, 64
        li a3, 0xffffffff
        jal ra, try             ; 20: of 64: none fails
        addi a1, zero, 0
        addi a2, zero, 65
        addi a3, zero, 0
        jal ra, try             ; 21: of 65
        addi a1, zero, 0
        addi a2, zero, 257
        addi a3, zero, 0
        jal ra, try             ; 22: of 257
        addi a1, zero, 0
        li a2, 0xffffffff
        addi a3, zero, 0
        jal ra, try             ; 23: of 2^32 - 1
        li a1, 65535
        addi a2, zero, 1
        addi a3, zero, 0
        jal ra, try             ; 24: the last number: none fails
        li a1, 65535
        addi a2, zero, 2
        addi a3, zero, 0
        jal ra, try             ; 25: one number more
        li a1, 65472
        addi a2, zero, 64
        addi a3, zero, 0
        jal ra, try             ; 26: the last 64 numbers: none fails
        li a1, 65473
        addi a2, zero, 64
        addi a3, zero, 0
        jal ra, try             ; 27: one number more
        li a1, 0x10000
        addi a2, zero, 1
        addi a3, zero, 0
        jal ra, try             ; 28: no child number
        li a1, 0x10000
        addi a2, zero, 0
        addi a3, zero, 0
        jal ra, try             ; 29: nor a row: 2 comes before 3
        li a1, 0xffffffff
        addi a2, zero, 1
        addi a3, zero, 0
        jal ra, try             ; 30: 2^32 - 1, to which 1 adds up to 0
        li a1, 0xffffffff
        addi a2, zero, 64
        addi a3, zero, 0
        jal ra, try             ; 31: and 64 to 63
        li a1, 0xffffffff
        li a2, 0xffffffff
        li a3, 0xffffffff
        jal ra, try             ; 32: 2^32 - 1 each: 2 comes before 3
        addi a0, zero, 0
        addi a7, zero, 3        ; Ret
        ecall
try:    sw a1, 44(s2)
        sw a2, 48(s2)
        sw a3, 52(s2)
        sw s1, 68(s2)           ; a7
        li a0, 0x50d3           ; Regs, Copy, Perm 5, Start and Limit
        addi a1, s0, 0
        addi a2, s2, 0
        lui a3, 0x10
        lui a4, 0x10
        lui a5, 1
        addi a6, zero, 1        ; one event
        addi a7, zero, 1        ; Put
        ecall
        addi s0, s0, 1
        jalr zero, 0(ra)
.segment 0x10000 1
        ecall
.segment 0x30000 3
        .zero 136
