; Two processes write a file each, and the root, which has waited for both, writes the two files to the console.
;
;   s0  the number of a process, 0 or 1        s1  the name of its file, at 0x2000 + 8 * s0        s2  its line, at 0x2010 + 8 * s0
.segment 0x1000 1
        addi s0, zero, 0
fork:   addi a1, s0, 0          ; child s0
        addi a7, zero, 16       ; FORK
        ecall
        bne a0, zero, child     ; a0 is 1 in the process, 0 in the root
        addi s0, s0, 1
        addi t0, zero, 2
        bne s0, t0, fork

        addi s0, zero, 0
show:   addi a1, s0, 0
        addi a7, zero, 17       ; WAIT: the files of the process come to the root
        ecall
        li s1, names
        slli t0, s0, 3
        add a1, s1, t0
        addi a2, zero, 1        ; a name of one letter
        li a3, buffer
        addi a4, zero, 8
        addi a5, zero, 0        ; from the first byte of the file
        addi a7, zero, 26       ; FGET: in a1 comes how many bytes there were
        ecall
        bne a0, zero, wrong
        addi a2, a1, 0
        li a1, buffer
        addi a7, zero, 4        ; console out
        ecall
        addi s0, s0, 1
        addi t0, zero, 2
        bne s0, t0, show
        addi a7, zero, 3        ; Ret, with a0 = 0
        ecall

child:  li s1, names
        li s2, lines
        slli t0, s0, 3
        add s1, s1, t0
        add s2, s2, t0
        addi a1, s1, 0
        addi a2, zero, 1
        addi a3, zero, 0        ; a file that may be replaced
        addi a7, zero, 24       ; FNEW
        ecall
        bne a0, zero, wrong
        addi a1, s1, 0
        addi a2, zero, 1
        addi a3, s2, 0
        addi a4, zero, 8
        addi a5, zero, 0        ; in the place of what was there
        addi a7, zero, 25       ; FPUT
        ecall
        bne a0, zero, wrong
        addi a7, zero, 3
        ecall
wrong:  ebreak                  ; a call was refused: a0 says why

.segment 0x2000 3
names:  .word 0x61              ; a
        .word 0
        .word 0x62              ; b
        .word 0
lines:  .word 0x73726966        ; firs
        .word 0x0a2e2e74        ; t.., and a line feed
        .word 0x6f636573        ; seco
        .word 0x0a2e646e        ; nd., and a line feed
buffer: .zero 8
