; A child counts for so many events as the script's clock says. Then a Put takes from its page of code the right to be fetched, and starts it again.
; The root returns how far the child has counted.
.segment 0x1000 1
        addi a7, zero, 6        ; clock
        ecall
        addi a6, a1, 0
        li a2, 0x2000           ; the register block
        li a3, 0x3000
        li a4, 0x3000
        li a5, 4096
        addi a1, zero, 1
        addi a7, zero, 1        ; Put
        li a0, 195              ; Regs, Copy, Start and Limit
        ecall
        addi a7, zero, 1        ; Put
        li a0, 8400             ; Perm, Start and Limit; the permission is to write
        ecall
        addi a7, zero, 2        ; Get
        addi a0, zero, 1        ; Regs: waits until the child has stopped
        ecall
        lw a0, 20(a2)           ; its t0
        addi a7, zero, 3        ; Ret
        ecall
.segment 0x2000 3
        .word 0x3000
        .zero 132
.segment 0x3000 1
loop:   addi t0, t0, 1
        jal zero, loop
