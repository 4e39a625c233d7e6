; THREADS threads are forked, each writes a word of each of its PAGES pages, TURNS times over, and all are joined.
.segment 0x1000 1
        lui s4, 0x1             ; the bytes of a page
        li s3, PAGES
        slli s3, s3, 12         ; the bytes of a thread's pages
        li s2, 0x100000         ; where they begin
        addi s0, zero, 0
        li s1, THREADS
fork:   addi a1, s0, 0
        addi a7, zero, 18       ; TFORK
        ecall
        bne a0, zero, thread
        add s2, s2, s3
        addi s0, s0, 1
        bne s0, s1, fork
        addi s0, zero, 0
join:   addi a1, s0, 0
        addi a7, zero, 19       ; TJOIN
        ecall
        addi s0, s0, 1
        bne s0, s1, join
        addi a7, zero, 3        ; Ret
        ecall
thread: li t1, TURNS
turn:   addi t0, s2, 0
        li t2, PAGES
page:   sw t1, 0(t0)
        add t0, t0, s4
        addi t2, t2, -1
        bne t2, zero, page
        addi t1, t1, -1
        bne t1, zero, turn
        addi a7, zero, 3
        ecall
.segment 0x100000 3
        .zero 1048576           ; 256 pages
