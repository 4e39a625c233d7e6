; COUNT calls that do little (console out of no bytes), with TURNS turns of a short loop before each: every call is an event
; that ends a stretch of 5 + 5 * TURNS events.
.segment 0x1000 1
        li t0, COUNT
        addi a7, zero, 4        ; console out
stretch: li t1, TURNS
loop:   slli t2, t3, 13
        xor t3, t3, t2
        add a3, a3, t3
        addi t1, t1, -1
        bne t1, zero, loop
        ecall
        addi t0, t0, -1
        bne t0, zero, stretch
        addi a7, zero, 3        ; Ret
        ecall
