; Two processes write one file: the second WAIT finds that both sides changed it, and the file is in conflict. The root is not stopped: the
; file keeps the content that the first WAIT brought, and reading it is refused with 5 in a0. The root then deletes the file, which ends the
; conflict, makes it anew, writes to it and reads it. It writes to the console what it has read, and returns the 5.
;
; Had both only added to a file that was made for that, there would be no conflict: files_in_turn.
;
;   s0  the data, at 0x2000: the name, what is written, and a buffer        s1  the number of a child        s2  the refusal
.segment 0x1000 1
        lui s0, 2
        addi a3, zero, 0        ; the content may be replaced
        jal ra, make
        addi s1, zero, 0
fork:   addi a1, s1, 0
        addi a7, zero, 16       ; FORK of child s1
        ecall
        bne a0, zero, kid       ; a0 is 1 in the process, 0 in the root
        addi s1, s1, 1
        addi t0, zero, 2
        bne s1, t0, fork
        addi s1, zero, 0
wait:   addi a1, s1, 0
        addi a7, zero, 17       ; WAIT: that of child 0 brings its content, that of child 1 the conflict
        ecall
        addi s1, s1, 1
        bne s1, t0, wait
        jal ra, read
        addi s2, a0, 0          ; 5: the file is in conflict
        addi a1, s0, 0
        addi a2, zero, 4
        addi a7, zero, 28       ; FDEL
        ecall
        addi a3, zero, 0
        jal ra, make            ; the same name again
        jal ra, write           ; s1 is 2: the third of the data
        jal ra, read
        addi a2, a1, 0
        addi a1, s0, 32
        addi a7, zero, 4        ; console out
        ecall
        addi a0, s2, 0
        addi a7, zero, 3        ; Ret
        ecall

        ; A process puts its data in the place of the content.
kid:    jal ra, write
        addi a7, zero, 3        ; a0 is 0 where nothing was refused
        ecall

        ; Each of these is one call on the file.
make:   addi a1, s0, 0
        addi a2, zero, 4
        addi a7, zero, 24       ; FNEW
        ecall
        jalr zero, 0(ra)
write:  slli a3, s1, 3          ; eight bytes for each number s1
        addi a3, a3, 8
        add a3, a3, s0
        addi a1, s0, 0
        addi a2, zero, 4
        addi a4, zero, 8
        addi a5, zero, 0        ; in the place of the content
        addi a7, zero, 25       ; FPUT
        ecall
        jalr zero, 0(ra)
read:   addi a1, s0, 0
        addi a2, zero, 4
        addi a3, s0, 32         ; the buffer
        addi a4, zero, 64       ; its length
        addi a5, zero, 0        ; from the beginning of the content
        addi a7, zero, 26       ; FGET: in a1 comes how many bytes there were
        ecall
        jalr zero, 0(ra)
.segment 0x2000 3
        .word 0x65746f6e        ; note
        .word 0
        .word 0x6c696863        ; chil
        .word 0x0a302064        ; d 0, and a line feed
        .word 0x6c696863        ; chil
        .word 0x0a312064        ; d 1, and a line feed
        .word 0x72207962        ; by r
        .word 0x0a746f6f        ; oot, and a line feed
        .zero 64                ; the buffer
