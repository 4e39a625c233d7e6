; What becomes of a file "f" at WAIT, for each row: the root has it in slot 2, behind two other files, and the process in slot 5, as the row says. The
; root compares its header and its content with those that are to come, and ends at a breakpoint at the first row that differs: s0 is its number.
;
; A row is the root's file, the process's and the one that is to come. A file is a word of four bytes, flags (1 append, 2 in conflict, 4 deleted),
; version, base and length at base, of which 0xff stands for 0xffffffff, and a word with up to four bytes of content, the first byte lowest. Two words
; of 0 are no file.
;
;   s0  the row's number        s1  the row        s2  slot 2        s3  the content of a file
.segment 0x1000 1
        li a0, 0x3010           ; Perm 3
        addi a1, zero, 0
        lui a4, 0xc0000
        lui a5, 0x400
        addi a7, zero, 2        ; Get: the slots may be read and written
        ecall
        li s2, 0xc0020000
        lui a1, 0x2
        addi a2, zero, 1
        addi a3, zero, 0
        addi a7, zero, 24       ; FNEW: a file in slot 0
        ecall
        addi a1, a1, 1
        ecall                   ; and in slot 1
        addi s0, zero, 0
        li s1, rows
next:   addi a0, s2, 0
        addi a1, s1, 0
        jal ra, write
        addi a1, zero, 1
        addi a7, zero, 16       ; FORK
        ecall
        bne a0, zero, kid
        addi a7, zero, 17       ; WAIT
        ecall
        bne a3, zero, other
        lui a0, 0x10
        addi a1, s1, 16
        jal ra, write           ; what is to come
        addi t0, zero, 8
        addi t1, s2, 0
look:   lw t2, 0(t1)
        lw t3, 0(a0)
        bne t2, t3, other
        addi t1, t1, 4
        addi a0, a0, 4
        addi t0, t0, -1
        bne t0, zero, look
        lw t0, 12(s2)           ; how many bytes there are
        beq t0, zero, same
        addi t1, zero, 4
        sub t1, t1, t0
        slli t1, t1, 3
        lui t0, 1
        add t2, s2, t0
        lw t2, 0(t2)
        sll t2, t2, t1
        lw t3, 20(s1)
        sll t3, t3, t1
        bne t2, t3, other
same:   addi s0, s0, 1
        addi s1, s1, 24
        addi t0, zero, 21
        bne s0, t0, next
        addi a0, zero, 0
        addi a7, zero, 3        ; Ret
        ecall
other:  ebreak
kid:    sw zero, 0(s2)
        li a0, 0xc0050000
        addi a1, s1, 8
        jal ra, write
        addi a7, zero, 3
        ecall
write:  sw zero, 0(a0)          ; the file of a1 to a0
        lb t0, 2(a1)            ; the version
        beq t0, zero, maybe
file:   sw t0, 4(a0)
        li t1, 0x31465444
        sw t1, 0(a0)
        lb t0, 1(a1)
        sw t0, 8(a0)            ; the base
        lb t0, 0(a1)
        sw t0, 16(a0)           ; the length at the base
        lb t0, 3(a1)
        sw t0, 20(a0)           ; the flags
        addi t0, zero, 1
        sw t0, 24(a0)
        addi t0, zero, 0x66
        sw t0, 28(a0)           ; the name
        lw t0, 4(a1)
        lui t1, 1
        add t1, a0, t1
        sw t0, 0(t1)            ; the content
        addi t1, zero, 0
count:  beq t0, zero, sized
        srli t0, t0, 8
        addi t1, t1, 1
        jal zero, count
sized:  sw t1, 12(a0)           ; its length
        jalr zero, 0(ra)
maybe:  lw t1, 4(a1)
        bne t1, zero, file      ; version 0 of a file with content
        lw t1, 0(a1)
        bne t1, zero, file
        jalr zero, 0(ra)
rows:   .word 0x00010009        ; 0: the child has not changed it
        .word 0x00000070        ; p
        .word 0x00010100
        .word 0x00000063        ; c
        .word 0x00010009
        .word 0x00000070        ; p
        .word 0x00040009        ; 1: nor here, where the parent has
        .word 0x00000070        ; p
        .word 0x01030300
        .word 0x00000063        ; c
        .word 0x00040009
        .word 0x00000070        ; p
        .word 0x00010009        ; 2: the child alone has; the bases of the parent stay
        .word 0x00000070        ; p
        .word 0x00020100
        .word 0x00006363        ; cc
        .word 0x00020009
        .word 0x00006363        ; cc
        .word 0x01010809        ; 3: it has deleted it
        .word 0x00007070        ; pp
        .word 0x04050100
        .word 0x00000000
        .word 0x04050809
        .word 0x00000000
        .word 0x04010000        ; 4: it has made it anew, and there it is in conflict
        .word 0x00000000
        .word 0x03020100
        .word 0x00000063        ; c
        .word 0x03020000
        .word 0x00000063        ; c
        .word 0x00ff0000        ; 5: versions go from 0xffffffff to 0
        .word 0x00000070        ; p
        .word 0x0000ff00
        .word 0x00000063        ; c
        .word 0x00000000
        .word 0x00000063        ; c
        .word 0x00020000        ; 6: both have: a conflict, and the child's greater version does not count
        .word 0x00000070        ; p
        .word 0x00090100
        .word 0x00006363        ; cc
        .word 0x02030000
        .word 0x00000070        ; p
        .word 0x00020000        ; 7: nor does its smaller one
        .word 0x00000070        ; p
        .word 0x00000100
        .word 0x00006363        ; cc
        .word 0x02030000
        .word 0x00000070        ; p
        .word 0x04ff0000        ; 8: the parent has deleted it
        .word 0x00000000
        .word 0x00020100
        .word 0x00000063        ; c
        .word 0x02000000
        .word 0x00000000
        .word 0x02020706        ; 9: it was in conflict before
        .word 0x00000070        ; p
        .word 0x00030100
        .word 0x00000063        ; c
        .word 0x02030706
        .word 0x00000070        ; p
        .word 0x01020009        ; 10: both have added to it
        .word 0x00007061        ; ap
        .word 0x01030101
        .word 0x00646361        ; acd
        .word 0x01030009
        .word 0x64637061        ; apcd
        .word 0x01020009        ; 11: the child has added nothing
        .word 0x00000070        ; p
        .word 0x01030101
        .word 0x00000063        ; c
        .word 0x01030009
        .word 0x00000070        ; p
        .word 0x00020009        ; 12: but the parent's is no file to add to
        .word 0x00007061        ; ap
        .word 0x01030101
        .word 0x00646361        ; acd
        .word 0x02030009
        .word 0x00007061        ; ap
        .word 0x01020009        ; 13: nor the child's
        .word 0x00007061        ; ap
        .word 0x00030101
        .word 0x00646361        ; acd
        .word 0x03030009
        .word 0x00007061        ; ap
        .word 0x03020009        ; 14: the parent's is in conflict
        .word 0x00007061        ; ap
        .word 0x01030101
        .word 0x00646361        ; acd
        .word 0x03030009
        .word 0x00007061        ; ap
        .word 0x01020009        ; 15: the child's
        .word 0x00007061        ; ap
        .word 0x03030101
        .word 0x00646361        ; acd
        .word 0x03030009
        .word 0x00007061        ; ap
        .word 0x05020009        ; 16: the parent's is deleted
        .word 0x00007061        ; ap
        .word 0x01030101
        .word 0x00646361        ; acd
        .word 0x03030009
        .word 0x00007061        ; ap
        .word 0x01020009        ; 17: the child's
        .word 0x00007061        ; ap
        .word 0x05030101
        .word 0x00646361        ; acd
        .word 0x03030009
        .word 0x00007061        ; ap
        .word 0x01020009        ; 18: the parent's is shorter than the base
        .word 0x00000061        ; a
        .word 0x01030102
        .word 0x00646361        ; acd
        .word 0x03030009
        .word 0x00000061        ; a
        .word 0x01020009        ; 19: the child's
        .word 0x00007061        ; ap
        .word 0x01030103
        .word 0x00006361        ; ac
        .word 0x03030009
        .word 0x00007061        ; ap
        .word 0x00000000        ; 20: the parent has no such file
        .word 0x00000000
        .word 0x07050401
        .word 0x00006261        ; ab
        .word 0x07050000
        .word 0x00006261        ; ab
.segment 0x2000 1
        .byte 0x78
        .byte 0x79
.segment 0x10000 3
        .zero 8192
