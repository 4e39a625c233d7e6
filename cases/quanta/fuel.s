; Threads of 1,000 events of fuel, as cases/quanta/out_of_fuel.words gives each space, in two rounds of 500. Thread 0 adds 1 to a word in each 4 events. Behind
; the first round there are 125, and it waits. At the end of the second its quantum and its fuel are used up at once: that is the cause fuel, so it
; does not wait, and what it stored is brought all the same: 250. A third start finds none.
;
;   s2  0x2000, the word
.segment 0x1000 1
        lui s2, 2
        addi a0, zero, 193      ; Regs, Start and Limit, which is 0
        addi a1, zero, 0
        lui a2, 3
        addi a6, zero, 0
        addi a7, zero, 1        ; Put
        ecall
        jal ra, round
        lbu s4, 0(s2)           ; 125
        slli s4, s4, 4
        add s4, s4, a1          ; 1
        slli s4, s4, 8
        jal ra, round
        lbu t0, 0(s2)           ; 250
        add s4, s4, t0
        slli s4, s4, 4
        add s4, s4, a1          ; 0
        addi a1, zero, 0
        addi a7, zero, 20       ; QSTART
        ecall
        slli a0, s4, 4
        add a0, a0, a1          ; 0
        addi a7, zero, 3        ; Ret
        ecall
round:  addi a1, zero, 0
        addi a2, zero, 1
        addi a3, zero, 500
        addi a7, zero, 20       ; QSTART
        ecall
        addi a1, zero, 0
        addi a7, zero, 21       ; QCOMMIT
        ecall
        jalr zero, 0(ra)
adds:   lw t0, 0(s2)
        addi t0, t0, 1
        sw t0, 0(s2)
        jal zero, adds
.segment 0x2000 3
        .zero 4
.segment 0x3000 1
        .word adds
        .zero 68
        .word 0x2000            ; s2
        .zero 60
