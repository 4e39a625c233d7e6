; Child 1 of the root makes ten children that never run and an eleventh that does, and returns. The root waits for all of them by a Get with Tree,
; which copies the eleventh, and starts child 1 again: it forks into its child 3, which had settled, and returns. The root waits again, and copies
; that one.
.segment 0x1000 1
        addi a1, zero, 1
        addi a7, zero, 16       ; FORK
        ecall
        bne a0, zero, kid
        addi a0, zero, 256
        addi a3, zero, 10
        addi a4, zero, 2
        addi a7, zero, 2        ; Get with Tree: /1/10 to /2
        ecall
        addi a0, zero, 64
        addi a7, zero, 1        ; Put with Start
        ecall
        addi a0, zero, 256
        addi a3, zero, 3
        addi a4, zero, 4
        addi a7, zero, 2        ; Get with Tree: /1/3 to /4
        ecall
        addi a7, zero, 3        ; Ret
        ecall
kid:    addi s0, zero, 0
make:   addi a0, zero, 0
        addi a1, s0, 0
        addi a7, zero, 1        ; Put without options makes a child
        ecall
        addi s0, s0, 1
        addi t0, zero, 10
        bne s0, t0, make
        addi a1, zero, 10
        addi a7, zero, 16       ; FORK
        ecall
        bne a0, zero, count
        addi a7, zero, 3
        ecall
        addi a1, zero, 3
        addi a7, zero, 16       ; FORK
        ecall
        bne a0, zero, count
        addi a7, zero, 3
        ecall
count:  addi t0, zero, 50
down:   addi t0, t0, -1
        bne t0, zero, down
        addi a0, a1, 0          ; returns its number
        addi a7, zero, 3
        ecall
