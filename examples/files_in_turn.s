; Two processes add a line each to one file, whose content may only be added to. Both begin with the root's file, which is empty then, and each
; WAIT brings what its process has added: the lines come in the order of the waits, whatever runs first. The root writes the file to the
; console, and returns how many bytes it has.
;
; A file is the process's own until its parent waits for it, so there are no locks. The name and all data of a call are bytes in memory.
;
;   s0  the data, at 0x2000: the name, the lines, and a buffer        s1  the number of a child
.segment 0x1000 1
        lui s0, 2
        addi a1, s0, 0          ; the name
        addi a2, zero, 3        ; its length
        addi a3, zero, 1        ; the content may only be added to
        addi a7, zero, 24       ; FNEW
        ecall
        addi s1, zero, 0
fork:   addi a1, s1, 0
        addi a7, zero, 16       ; FORK of child s1
        ecall
        bne a0, zero, add       ; a0 is 1 in the process, 0 in the root
        addi s1, s1, 1
        addi t0, zero, 2
        bne s1, t0, fork
        addi s1, zero, 0
wait:   addi a1, s1, 0
        addi a7, zero, 17       ; WAIT brings what child s1 has added
        ecall
        addi s1, s1, 1
        bne s1, t0, wait
        addi a1, s0, 0          ; the name
        addi a2, zero, 3
        addi a3, s0, 24         ; the buffer
        addi a4, zero, 64       ; its length
        addi a5, zero, 0        ; from the beginning of the content
        addi a7, zero, 26       ; FGET: in a1 comes how many bytes there were
        ecall
        addi s2, a1, 0
        addi a1, s0, 24
        addi a2, s2, 0
        addi a7, zero, 4        ; console out
        ecall
        addi a0, s2, 0
        addi a7, zero, 3        ; Ret
        ecall
add:    slli a3, s1, 3          ; the line of child s1, eight bytes
        addi a3, a3, 8
        add a3, a3, s0
        addi a1, s0, 0          ; the name
        addi a2, zero, 3
        addi a4, zero, 8
        addi a5, zero, 1        ; behind the content
        addi a7, zero, 25       ; FPUT
        ecall
        addi a7, zero, 3        ; a0 is 0 where nothing was refused
        ecall
.segment 0x2000 3
        .word 0x00676f6c        ; log
        .word 0
        .word 0x73726966        ; firs
        .word 0x0a2e2e74        ; t.., and a line feed
        .word 0x6f636573        ; seco
        .word 0x0a2e646e        ; nd., and a line feed
        .zero 64                ; the buffer
