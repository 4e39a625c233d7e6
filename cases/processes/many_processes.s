; Forks a process and waits for it, 10,000 times. Each writes to eight pages, so that it has pages of its own until the wait takes it away: were
; they kept, the pages alone would be more than 300 MiB.
.segment 0x1000 1
        li s1, 10000
next:   addi a1, zero, 1
        addi a7, zero, 16       ; FORK
        ecall
        bne a0, zero, kid
        addi a7, zero, 17       ; WAIT
        ecall
        addi s1, s1, -1
        bne s1, zero, next
        addi a0, zero, 0
        addi a7, zero, 3        ; Ret
        ecall
kid:    lui t0, 2
        lui t1, 10              ; the end of its pages
        lui t2, 1
page:   sw t1, 0(t0)
        add t0, t0, t2
        bne t0, t1, page
        addi a7, zero, 3
        ecall
.segment 0x2000 3
        .zero 32768
