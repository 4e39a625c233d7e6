; A thread writes a word, and its parent, which goes on meanwhile, joins it and returns that word: how a thread is written.
.segment 0x1000 1
        lui s0, 2               ; data, at 0x2000
        addi a1, zero, 1        ; child 1
        addi a7, zero, 18       ; TFORK
        ecall
        bne a0, zero, work      ; a0 is 1 in the thread, 0 in the parent
        addi t1, zero, 2
        sw t1, 4(s0)            ; the parent goes on
        addi a1, zero, 1
        addi a7, zero, 19       ; TJOIN waits for the thread, and merges what it has changed
        ecall
        addi t0, zero, 20
        bne a1, t0, failed      ; a1 is the cause and a2 the value; 20 is ret
        lw a0, 0(s0)            ; what the thread wrote
        addi a7, zero, 3        ; Ret
        ecall
work:   addi t1, zero, 1
        sw t1, 0(s0)
        addi a0, zero, 0
        addi a7, zero, 3        ; Ret ends the thread
        ecall
failed: ebreak
.segment 0x2000 3
        .zero 8
