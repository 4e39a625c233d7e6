; Each call on a file, in turn, on one file named "one": what it answers in a0 and a1 is written to the console, eight bytes a call. a1 stays the
; address of the name where a call gives no number.
;
;   s0  the name        s1  its length
.segment 0x1000 1
        lui s0, 2               ; the name, and what is told, at 0x2000
        addi s1, zero, 3
        addi a7, zero, 27       ; FLEN: there is none
        jal ra, ask
        addi a3, zero, 0
        addi a7, zero, 24       ; FNEW: it is made
        jal ra, ask
        addi a7, zero, 24       ; FNEW: it is there
        jal ra, ask
        li a3, 0x2000
        addi a4, zero, 3
        addi a5, zero, 0
        addi a7, zero, 25       ; FPUT: "one" is its content
        jal ra, ask
        addi a4, zero, 2
        addi a5, zero, 1
        addi a7, zero, 25       ; FPUT: and "on" behind it
        jal ra, ask
        addi a7, zero, 27       ; FLEN: five bytes
        jal ra, ask
        li a3, 0x2fff
        addi a4, zero, 9
        addi a5, zero, 3
        addi a7, zero, 26       ; FGET: at most nine from the third on: two
        jal ra, ask
        li a3, 0x2100
        addi a4, zero, 9
        addi a5, zero, 5
        addi a7, zero, 26       ; FGET: none from the end on
        jal ra, ask
        addi a5, zero, -1
        addi a7, zero, 26       ; FGET: none far behind it
        jal ra, ask
        li a3, 0x2000
        li a4, 0xf000
        addi a5, zero, 0
        addi a7, zero, 25       ; FPUT: as many bytes as a file may have
        jal ra, ask
        addi a4, zero, 1
        addi a5, zero, 1
        addi a7, zero, 25       ; FPUT: one more
        jal ra, ask
        addi a4, zero, 0
        addi a7, zero, 25       ; FPUT: none more
        jal ra, ask
        li a4, 0xf001
        addi a5, zero, 0
        addi a7, zero, 25       ; FPUT: one more than there may be
        jal ra, ask
        li a3, 0x11000
        li a4, 0x10000
        addi a5, zero, 0
        addi a7, zero, 26       ; FGET: all of it, into a greater buffer
        jal ra, ask
        addi a7, zero, 28       ; FDEL: it is deleted
        jal ra, ask
        addi a7, zero, 28       ; FDEL: it is there no more
        jal ra, ask
        addi a7, zero, 27       ; FLEN: nor has it a length
        jal ra, ask
        addi a7, zero, 26       ; FGET: nor can it be read
        jal ra, ask
        addi a4, zero, 1
        addi a7, zero, 25       ; FPUT: nor written
        jal ra, ask
        addi a3, zero, 1
        addi a7, zero, 24       ; FNEW: it is made anew, to add to alone
        jal ra, ask
        addi a7, zero, 27       ; FLEN: it is empty
        jal ra, ask
        li a3, 0x2000
        addi a4, zero, 3
        addi a5, zero, 0
        addi a7, zero, 25       ; FPUT: it may not be replaced
        jal ra, ask
        addi a5, zero, 1
        addi a7, zero, 25       ; FPUT: it may be added to
        jal ra, ask
        addi a7, zero, 27       ; FLEN: three bytes
        jal ra, ask
        lui a1, 3
        addi a1, a1, -1
        addi a2, zero, 3
        addi a7, zero, 4        ; the two bytes that were read, and the next
        ecall
        lui a1, 0x12
        addi a1, a1, -1
        addi a2, zero, 1
        addi a7, zero, 4        ; the byte that stood at 0x2fff when the file was written whole
        ecall
        addi a0, zero, 0
        addi a7, zero, 3        ; Ret
        ecall
ask:    addi a1, s0, 0
        addi a2, s1, 0
        ecall
        sw a0, 16(s0)
        sw a1, 20(s0)
        addi a1, s0, 16
        addi a2, zero, 8
        addi a7, zero, 4        ; console out
        ecall
        jalr zero, 0(ra)
.segment 0x2000 3
        .byte 0x6f              ; one
        .byte 0x6e
        .byte 0x65
        .zero 126973            ; up to 0x20fff
