; Reads its input, at most 16 bytes at a time, and writes it to the console as it comes. The input is the script's: `echo.script`.
.segment 0x1000 1
        lui s0, 2
next:   addi a1, s0, 0          ; a buffer of 16 bytes at 0x2000
        addi a2, zero, 16
        addi a7, zero, 5        ; console in: a1 tells how many bytes there were
        ecall
        beq a1, zero, end
        addi a2, a1, 0
        addi a1, s0, 0
        addi a7, zero, 4        ; console out
        ecall
        jal zero, next
end:    addi a0, zero, 0
        addi a7, zero, 3
        ecall
.segment 0x2000 3
.zero 16
