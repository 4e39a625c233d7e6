; Calls on files with registers that some test fails, each by a child of the root that does nothing but this call: the report has the number of the
; first test that fails. Where none fails, a byte without the right stops the child.
;
; s0 is the row's number, which is the child's, s1 the call's number, s2 the register block
.segment 0x10000 1
        addi s0, zero, 0
        lui s2, 0x30
        li t0, call
        sw t0, 0(s2)            ; pc
        addi s1, zero, 24       ; FNEW
        li a3, 2
        jal ra, try             ; 0: append is neither 0 nor 1
        li a3, 0x80000000
        jal ra, try             ; 1: the same
        li a1, 0xffffffff
        li a2, 2
        li a3, 2
        jal ra, try             ; 2: and a name past the end
        li a1, 0xfffffffe
        li a2, 3
        jal ra, try             ; 3: a name past the end
        li a1, 0xfffffffe
        li a2, 2
        li a3, 1
        li a4, 0xffffffff
        li a5, 9
        jal ra, try             ; 4: one up to it: none fails, but it may not be read
        li a2, 65537
        jal ra, try             ; 5: a name of more than 65,536 bytes
        li a1, 0xffff0000
        li a2, 0x10000
        jal ra, try             ; 6: of as many: none fails
        li a1, 0xffff0000
        li a2, 65537
        jal ra, try             ; 7: of more, and past the end
        addi s1, zero, 25       ; FPUT
        li a5, 2
        jal ra, try             ; 8: add is neither 0 nor 1
        li a3, 0xffffffff
        li a4, 2
        li a5, 2
        jal ra, try             ; 9: and data past the end
        li a1, 0xfffffffe
        li a2, 3
        jal ra, try             ; 10: a name past the end
        li a3, 0xfffffffe
        li a4, 3
        jal ra, try             ; 11: data past the end
        li a3, 0xfffffffe
        li a4, 2
        li a5, 1
        jal ra, try             ; 12: up to it: none fails
        li a2, 65537
        jal ra, try             ; 13: a name of more than 65,536 bytes
        li a4, 65537
        jal ra, try             ; 14: data of more
        li a3, 0xffff0000
        li a4, 0x10000
        jal ra, try             ; 15: of as many: none fails
        li a2, 65537
        li a3, 0xfffffffe
        li a4, 3
        jal ra, try             ; 16: a long name, and data past the end
        addi s1, zero, 26       ; FGET
        li a1, 0xfffffffe
        li a2, 3
        li a5, 2
        jal ra, try             ; 17: a name past the end
        li a3, 0xfffffffe
        li a4, 3
        li a5, 2
        jal ra, try             ; 18: a buffer past the end
        li a3, 0xfffffffe
        li a4, 2
        li a5, 2
        jal ra, try             ; 19: up to it, with any a5: none fails, but it may not be written
        li a2, 65537
        jal ra, try             ; 20: a name of more than 65,536 bytes
        li a4, 65537
        jal ra, try             ; 21: a buffer of more
        li a1, 0xfffffffe
        li a2, 3
        li a4, 65537
        jal ra, try             ; 22: a name past the end, and a long buffer
        addi s1, zero, 27       ; FLEN
        li a1, 0xfffffffe
        li a2, 3
        jal ra, try             ; 23: a name past the end
        li a2, 65537
        jal ra, try             ; 24: a name of more than 65,536 bytes
        li a1, 0xfffffffe
        li a2, 2
        li a3, 0xfffffffe
        li a4, 65537
        li a5, 2
        jal ra, try             ; 25: there is no data: none fails
        addi s1, zero, 28       ; FDEL
        li a1, 0xfffffffe
        li a2, 3
        jal ra, try             ; 26: a name past the end
        li a2, 65537
        jal ra, try             ; 27: a name of more than 65,536 bytes
        li a1, 0xfffffffe
        li a2, 2
        li a3, 0xfffffffe
        li a4, 65537
        li a5, 2
        jal ra, try             ; 28: there is no data: none fails
        addi a0, zero, 0
        addi a7, zero, 3        ; Ret
        ecall
try:    sw a0, 40(s2)
        sw a1, 44(s2)
        sw a2, 48(s2)
        sw a3, 52(s2)
        sw a4, 56(s2)
        sw a5, 60(s2)
        sw s1, 68(s2)           ; a7
        li a0, 0x50d3           ; Regs, Copy, Perm 5, Start and Limit
        addi a1, s0, 0
        addi a2, s2, 0
        lui a3, 0x10
        lui a4, 0x10
        lui a5, 1
        addi a6, zero, 1        ; one event
        addi a7, zero, 1        ; Put
        ecall
        addi s0, s0, 1
        addi a1, zero, 0
        addi a2, zero, 0
        addi a3, zero, 0
        addi a4, zero, 0
        addi a5, zero, 0
        jalr zero, 0(ra)
call:   ecall
.segment 0x30000 3
        .zero 136
