; Calls with registers that some test fails, each by a child of the root that does nothing but this call, at 0x10000 and what stands there: the report
; has the number of the first test that fails. Where none fails the child ends behind its call by its limit of one event.
;
;   s0  the row's number, which is the child's        s1  the call's number        s2  the register block
.segment 0x10000 1
        addi s0, zero, 0
        lui s2, 0x30
        li t0, call
        sw t0, 0(s2)            ; pc
        addi s1, zero, 1        ; Put
        li a0, 0x80000000
        jal ra, try             ; 0: an option that is not known
        li a0, 0x8010
        jal ra, try             ; 1: the bit above the permission
        li a0, 0x7010
        jal ra, try             ; 2: none fails
        li a0, 0x1000
        jal ra, try             ; 3: a permission without Perm
        li a0, 0x2000
        jal ra, try             ; 4: the same
        li a0, 8
        jal ra, try             ; 5: Merge
        li a0, 520
        jal ra, try             ; 6: Merge and Agree
        li a0, 128
        jal ra, try             ; 7: Limit without Start
        li a0, 128
        li a1, 0x10000
        jal ra, try             ; 8: and no child number
        li a0, 192
        jal ra, try             ; 9: with Start: none fails
        li a0, 32
        jal ra, try             ; 10: Snap: none fails
        li a0, 256
        jal ra, try             ; 11: Tree: none fails
        li a0, 257
        li a2, 2
        jal ra, try             ; 12: Tree with Regs, at no multiple of 4
        li a0, 2
        li a1, 0x10000
        li a5, 1
        jal ra, try             ; 13: no child number, and no size
        li a0, 256
        li a4, 0x10000
        jal ra, try             ; 14: Tree to no child number
        li a0, 17
        li a2, 2
        li a4, 1
        jal ra, try             ; 15: no range, and no block
        li a0, 1
        li a2, 2
        jal ra, try             ; 16: a block at no multiple of 4
        addi s1, zero, 2        ; Get
        li a0, 1024
        jal ra, try             ; 17: an option that is not known
        li a0, 0x4000
        jal ra, try             ; 18: a permission without Perm
        li a0, 6
        jal ra, try             ; 19: Copy and Zero
        li a0, 10
        jal ra, try             ; 20: Copy and Merge
        li a0, 12
        jal ra, try             ; 21: Zero and Merge
        li a0, 512
        jal ra, try             ; 22: Agree without Merge
        li a0, 32
        jal ra, try             ; 23: Snap
        li a0, 64
        jal ra, try             ; 24: Start
        li a0, 128
        jal ra, try             ; 25: Limit
        li a0, 272
        jal ra, try             ; 26: Tree and Perm
        li a1, 65535
        jal ra, try             ; 27: the last child number: none fails
        li a1, 0x10000
        jal ra, try             ; 28: one above it
        li a3, 0x10000
        li a4, 0x10000
        jal ra, try             ; 29: which is nothing in a3 or a4: none fails
        li a0, 256
        li a1, 0x10000
        jal ra, try             ; 30: Tree with no child number in a1
        li a0, 256
        li a3, 0x10000
        jal ra, try             ; 31: in a3
        li a0, 256
        li a4, 0x10000
        jal ra, try             ; 32: in a4
        li a0, 4
        li a3, 1
        li a4, 0xfffff000
        li a5, 0x1000
        jal ra, try             ; 33: Zero of the last page, with any a3: none fails
        li a0, 4
        li a4, 0xfffff000
        li a5, 0x2000
        jal ra, try             ; 34: one page more
        li a0, 8
        li a4, 0xfffff000
        li a5, 0x2000
        jal ra, try             ; 35: the same with Merge, of a child without a snapshot
        li a0, 8
        jal ra, try             ; 36: no snapshot
        li a0, 16
        li a4, 1
        jal ra, try             ; 37: Perm at no multiple of 4096
        li a0, 16
        li a5, 1
        jal ra, try             ; 38: of no multiple of it
        li a0, 2
        li a3, 1
        li a5, 0x1000
        jal ra, try             ; 39: Copy from no multiple of it
        li a0, 2
        li a3, 0xfffff000
        li a5, 0x2000
        jal ra, try             ; 40: from past the end
        li a0, 256
        li a3, 1
        li a4, 1
        li a5, 1
        jal ra, try             ; 41: Tree has no range: none fails
        li a0, 1
        li a2, 0xffffff78
        jal ra, try             ; 42: the last block: none fails, but it may not be written
        li a0, 1
        li a2, 0xffffff7c
        jal ra, try             ; 43: a block past the end
        li a2, 2
        jal ra, try             ; 44: no block: none fails
        addi s1, zero, 3        ; Ret
        li a0, 8
        li a1, 0x10000
        li a2, 2
        jal ra, try             ; 45: no test is of Ret
        addi s1, zero, 4        ; console out
        li a1, 0xffffffff
        li a2, 1
        jal ra, try             ; 46: of the last byte, by a child
        li a1, 0xffffffff
        li a2, 2
        jal ra, try             ; 47: of one byte more
        li a2, 65537
        jal ra, try             ; 48: of more than 65,536 bytes
        addi s1, zero, 5        ; console in
        li a1, 0xffffffff
        li a2, 1
        jal ra, try             ; 49: the same
        li a1, 0xffffffff
        li a2, 2
        jal ra, try             ; 50: the same
        li a2, 65537
        jal ra, try             ; 51: the same
        addi s1, zero, 6        ; clock
        li a1, 0xffffffff
        li a2, 65537
        jal ra, try             ; 52: by a child
        addi s1, zero, 7        ; random
        li a1, 0xffffffff
        li a2, 65537
        jal ra, try             ; 53: by a child
        addi s1, zero, 16       ; FORK
        li a1, 0x10000
        jal ra, try             ; 54: no child number
        addi s1, zero, 17       ; WAIT
        li a1, 0x10000
        jal ra, try             ; 55: no child number
        addi s1, zero, 18       ; TFORK
        li a1, 0x10000
        jal ra, try             ; 56: no child number
        addi s1, zero, 19       ; TJOIN
        li a1, 0x10000
        jal ra, try             ; 57: no child number
        addi s1, zero, 0        ; no call
        jal ra, try             ; 58: no call has this number
        addi s1, zero, 8        ; no call
        jal ra, try             ; 59: no call has this number
        addi s1, zero, 15       ; no call
        jal ra, try             ; 60: no call has this number
        addi s1, zero, 22       ; no call
        jal ra, try             ; 61: no call has this number
        addi s1, zero, 23       ; no call
        jal ra, try             ; 62: no call has this number
        addi s1, zero, 29       ; no call
        jal ra, try             ; 63: no call has this number
        addi a0, zero, 0
        addi a7, zero, 3        ; Ret
        ecall
try:    sw a0, 40(s2)
        sw a1, 44(s2)
        sw a2, 48(s2)
        sw a3, 52(s2)
        sw a4, 56(s2)
        sw a5, 60(s2)
        sw s1, 68(s2)           ; a7
        li a0, 0x50d3           ; Regs, Copy, Perm 5, Start and Limit
        addi a1, s0, 0
        addi a2, s2, 0
        lui a3, 0x10
        lui a4, 0x10
        lui a5, 1
        addi a6, zero, 1        ; one event
        addi a7, zero, 1        ; Put
        ecall
        addi s0, s0, 1
        addi a1, zero, 0
        addi a2, zero, 0
        addi a3, zero, 0
        addi a4, zero, 0
        addi a5, zero, 0
        jalr zero, 0(ra)
call:   ecall
.segment 0x30000 3
        .zero 136
