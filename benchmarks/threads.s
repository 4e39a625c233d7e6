; COUNT threads on a memory of PAGES pages, each of which has a word that is not 0: all are forked, each writes one word of a page, and all
; are joined. PAGES is a power of two.
.segment 0x1000 1
        li a1, 65535            ; a child that is not there
        li a4, 0x10000000
        li a5, PAGES
        slli a5, a5, 12
        addi a7, zero, 2        ; Get
        li a0, 0x3010           ; Perm: may be read and written
        ecall
        li t0, 0x10000000
        li t1, PAGES
        li t2, 4096
fill:   sw t1, 0(t0)
        add t0, t0, t2
        addi t1, t1, -1
        bne t1, zero, fill

        addi s0, zero, 0
        li s1, COUNT
        beq s0, s1, end
fork:   addi a1, s0, 0
        addi a7, zero, 18       ; TFORK
        ecall
        bne a0, zero, thread
        addi s0, s0, 1
        bne s0, s1, fork
        addi s0, zero, 0
join:   addi a1, s0, 0
        addi a7, zero, 19       ; TJOIN
        ecall
        addi s0, s0, 1
        bne s0, s1, join
end:    addi a7, zero, 3        ; Ret
        ecall

; Thread s0 writes word s0 + 1, counted in words, of page s0 modulo PAGES: no two threads write one word.
thread: li t0, PAGES
        addi t0, t0, -1
        and t0, t0, s0
        slli t0, t0, 12
        li t1, 0x10000000
        add t0, t0, t1
        li t2, 1023
        and t2, t2, s0
        slli t2, t2, 2
        add t0, t0, t2
        addi t1, s0, 1
        sw t1, 4(t0)
        addi a7, zero, 3
        ecall
