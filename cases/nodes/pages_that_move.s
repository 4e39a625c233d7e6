; The root writes a number to each of a thousand pages, no two alike, and then names a child that is at home on another node than the one before: thirty times. With
; three nodes it moves each time, and both nodes keep the pages that went.
.segment 0x1000 1
        lui s0, 0x1000          ; the pages
        lui s1, 0x13e8          ; their end
        lui s4, 1               ; the bytes of a page
        lui a0, 3
        addi a0, a0, 16         ; Perm, and the permission 3
        addi a1, zero, 0
        addi a4, s0, 0
        lui a5, 0x3e8
        addi a7, zero, 2        ; Get of a missing child: the root may write its pages from now on
        ecall
        addi s2, zero, 256      ; at home on node 1
        addi s3, zero, 512      ; at home on node 2
        addi s5, zero, 30
        addi t1, zero, 0
again:  addi t0, s0, 0
write:  addi t1, t1, 1
        sw t1, 0(t0)
        add t0, t0, s4
        bne t0, s1, write
        addi a0, zero, 0        ; a Put without options makes a child
        addi a1, s2, 0
        addi a7, zero, 1
        ecall
        addi t0, s2, 0          ; the other child is next
        addi s2, s3, 0
        addi s3, t0, 0
        addi s5, s5, -1
        bne s5, zero, again
        addi a0, zero, 7
        addi a7, zero, 3
        ecall
