; Two threads over one memory, told for readers who know pthreads: one sends letters through a mailbox of one byte, the other takes them. They run in rounds of
; quanta of 20 events. What one writes the other sees in the next round, so a letter is sent in one round and taken in the next.
;
; No lock is needed, since only the sender writes while the mailbox is empty, and only the taker while it is full. Threads that may write one
; byte in one round need one, which their parent gives (docs/KERNEL.md, "For programmers: threads in rounds of quanta").
;
;   0x2000  the registers of a thread that is made    0x3000  the mailbox    0x3010  what was taken    0x4000  what is sent
.segment 0x1000 1
        lui s0, 2
        lui s1, 3
        li t0, sender
        sw t0, 0(s0)            ; pc
        li a0, 193              ; Regs, Start and Limit
        addi a1, zero, 0
        addi a2, s0, 0
        addi a6, zero, 0        ; the limit 0: it waits for a quantum
        addi a7, zero, 1        ; Put
        ecall
        li t0, taker
        sw t0, 0(s0)
        li a0, 193
        addi a1, zero, 1
        ecall
round:  addi a1, zero, 0        ; from child 0 on
        addi a2, zero, 2        ; two of them
        addi a3, zero, 20       ; for 20 events each
        addi a7, zero, 20       ; QSTART
        ecall
        addi a1, zero, 0
        addi a7, zero, 21       ; QCOMMIT waits for both, and takes what they have written
        ecall
        bne a1, zero, round     ; a1 is how many wait for a quantum: the others have ended
        addi a1, s1, 16
        addi a2, zero, 6
        addi a7, zero, 4        ; console out
        ecall
        addi a7, zero, 3        ; Ret
        ecall

sender: lui t0, 3
        lui t1, 4
next:   lbu t2, 0(t1)
        beq t2, zero, sent
full:   lbu t3, 0(t0)
        bne t3, zero, full      ; until its quantum ends: its copy does not change meanwhile
        sb t2, 0(t0)
        addi t1, t1, 1
        jal zero, next
sent:   addi a7, zero, 3
        ecall

taker:  lui t0, 3
        addi t1, t0, 16
        addi t3, zero, 10       ; the line feed is the last
empty:  lbu t2, 0(t0)
        beq t2, zero, empty
        sb t2, 0(t1)
        addi t1, t1, 1
        sb zero, 0(t0)
        bne t2, t3, empty
        addi a7, zero, 3
        ecall
.segment 0x2000 3
        .zero 136
.segment 0x3000 3
        .zero 32
.segment 0x4000 1
        .byte 104               ; hello
        .byte 101
        .byte 108
        .byte 108
        .byte 111
        .byte 10
        .byte 0
