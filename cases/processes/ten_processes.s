; The root makes a file whose content may only be added to, and forks ten processes; each adds its number, as a digit, and returns it. The root
; waits for one after the other, writes the file to the console and returns the sum of what the processes returned.
;
;   s0  the data, at 0x2000: the file's name, a digit, and from 0x2010 on a buffer        s1  the number of a process
.segment 0x1000 1
        lui s0, 2
        addi a1, s0, 0
        addi a2, zero, 1
        addi a3, zero, 1        ; the content may only be added to
        addi a7, zero, 24       ; FNEW
        ecall
        addi s1, zero, 0
        addi s2, zero, 10
fork:   addi a1, s1, 0
        addi a7, zero, 16       ; FORK
        ecall
        bne a0, zero, kid
        addi s1, s1, 1
        bne s1, s2, fork
        addi s1, zero, 0
        addi s3, zero, 0
wait:   addi a1, s1, 0
        addi a7, zero, 17       ; WAIT
        ecall
        add s3, s3, a2          ; what it returned
        addi s1, s1, 1
        bne s1, s2, wait
        addi a1, s0, 0
        addi a2, zero, 1
        addi a3, s0, 16
        addi a4, zero, 64
        addi a5, zero, 0
        addi a7, zero, 26       ; FGET
        ecall
        addi a2, a1, 0
        addi a1, s0, 16
        addi a7, zero, 4        ; console out
        ecall
        addi a0, s3, 0
        addi a7, zero, 3        ; Ret
        ecall
kid:    addi t0, s1, 48
        sb t0, 1(s0)
        addi a1, s0, 0
        addi a2, zero, 1
        addi a3, s0, 1
        addi a4, zero, 1
        addi a5, zero, 1
        addi a7, zero, 25       ; FPUT
        ecall
        addi a0, s1, 0
        addi a7, zero, 3
        ecall
.segment 0x2000 3
        .byte 0x64
        .zero 79
