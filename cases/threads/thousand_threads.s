; The root writes a 1 to each of 4,096 pages, forks a thousand threads, each of which writes a 2 to a page of its own, joins them all, and
; returns the sum of the bytes. What a fork copies is a reference: copies of pages that nobody writes would need more memory than there is.
.segment 0x1000 1
        lui s0, 0x1000          ; the pages
        lui s1, 0x2000          ; their end
        lui s4, 1               ; the bytes of a page
        lui a0, 3
        addi a0, a0, 16         ; Perm, and the permission 3
        addi a1, zero, 0
        addi a4, s0, 0
        lui a5, 0x1000
        addi a7, zero, 2        ; Get of a missing child: the root's own pages may be written from now on
        ecall
        addi t0, s0, 0
        addi t1, zero, 1
write:  sb t1, 0(t0)
        add t0, t0, s4
        bne t0, s1, write
        addi s2, zero, 0
        addi s3, zero, 1000
fork:   addi a1, s2, 0
        addi a7, zero, 18       ; TFORK
        ecall
        bne a0, zero, kid
        addi s2, s2, 1
        bne s2, s3, fork
        addi s2, zero, 0
join:   addi a1, s2, 0
        addi a7, zero, 19       ; TJOIN
        ecall
        addi s2, s2, 1
        bne s2, s3, join
        addi t0, s0, 0
        addi a0, zero, 0
sum:    lbu t1, 0(t0)
        add a0, a0, t1
        add t0, t0, s4
        bne t0, s1, sum
        addi a7, zero, 3        ; Ret
        ecall
kid:    slli t0, s2, 12
        add t0, t0, s0
        addi t1, zero, 2
        sb t1, 0(t0)
        addi a7, zero, 3
        ecall
