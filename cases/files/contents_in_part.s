; What a root has of three files behind a WAIT, where a content ends within a page. Bytes are a, which the root wrote, b, which the process wrote, and 0.
; Of f it takes over 4,101 bytes, a page and five bytes, in the place of 12,288 of its own, and leaves those behind them. To g, of two bytes at the FORK, the
; root adds a byte and the process 4,101: they stand behind the root's three, so no page of the one is a page of the other. h is new: four bytes of a page in
; which the process has written nothing, and they come where the root has written. The console tells the bytes, and the last digits of two lengths.
;
;   s1  data: 3 pages    s2  names, and what the console gets    s3, s4  the second and the third page of data
.segment 0x1000 1
        li a0, 0x3010           ; Perm 3
        addi a1, zero, 0
        lui a4, 0xc0000
        lui a5, 0x400
        addi a7, zero, 2        ; Get: the slots may be read and written
        ecall
        li a0, 0x3010
        lui a4, 0x20
        lui a5, 0x4
        ecall                   ; and the data
        lui s1, 0x20
        lui s3, 0x21
        lui s4, 0x22
        lui s2, 0x23
        addi t0, zero, 0x66
        sb t0, 0(s2)            ; f
        addi t0, zero, 0x67
        sb t0, 1(s2)            ; g
        addi t0, zero, 0x61     ; a
        sb t0, 0(s1)
        sb t0, 0(s3)
        sb t0, 4(s3)
        sb t0, 8(s3)
        sb t0, 0(s4)
        addi a1, s2, 0
        addi a2, zero, 1
        addi a3, zero, 0
        addi a7, zero, 24       ; FNEW f, in slot 0
        ecall
        addi a1, s2, 1
        addi a3, zero, 1
        ecall                   ; FNEW g, of append, in slot 1
        addi a3, s1, 0
        addi a4, zero, 2
        addi a5, zero, 1
        addi a7, zero, 25       ; FPUT: g is a, 0
        ecall
        addi a1, s2, 0
        lui a4, 0x3
        addi a5, zero, 0
        ecall                   ; f is 12,288 bytes
        addi a1, zero, 1
        addi a7, zero, 16       ; FORK
        ecall
        bne a0, zero, kid
        addi a1, s2, 1
        addi a2, zero, 1
        addi a3, s1, 0
        addi a4, zero, 1
        addi a5, zero, 1
        addi a7, zero, 25       ; g is a, 0, a
        ecall
        addi t0, zero, 0x61
        lui s8, 0xc0021         ; the content of slot 2, which is free
        sb t0, 0(s8)
        sb t0, 4(s8)
        addi a1, zero, 1
        addi a7, zero, 17       ; WAIT
        ecall
        lui s5, 0xc0001         ; f
        lui s6, 0xc0002
        lui s7, 0xc0003
        lbu t0, 0(s5)           ; b: the first byte
        sb t0, 16(s2)
        lbu t0, -1(s6)          ; b: the last one of the first page
        sb t0, 17(s2)
        lbu t0, 0(s6)           ; b: the first of the second page
        sb t0, 18(s2)
        lbu t0, 4(s6)           ; b: the last one
        sb t0, 19(s2)
        lbu t0, 8(s6)           ; a: behind the content, in its page
        sb t0, 20(s2)
        lbu t0, 0(s7)           ; a: behind that page
        sb t0, 21(s2)
        lui s5, 0xc0011         ; g
        lui s6, 0xc0012
        lbu t0, 2(s5)           ; a: what the root added
        sb t0, 22(s2)
        lbu t0, 3(s5)           ; b: the first byte that the process added
        sb t0, 23(s2)
        lbu t0, 2(s6)           ; b: the last one of the first page of its data
        sb t0, 24(s2)
        lbu t0, 3(s6)           ; b: the first of the second
        sb t0, 25(s2)
        lbu t0, 7(s6)           ; b: the last one
        sb t0, 26(s2)
        lbu t0, 0(s8)           ; h: 0
        addi t0, t0, 0x30
        sb t0, 27(s2)
        lbu t0, 4(s8)           ; a: behind it
        sb t0, 28(s2)
        addi a1, s2, 0
        addi a2, zero, 1
        addi a7, zero, 27       ; FLEN f: 4,101
        ecall
        lui t1, 1
        sub t0, a1, t1
        addi t0, t0, 0x30
        sb t0, 29(s2)
        addi a1, s2, 1
        ecall                   ; FLEN g: 4,104
        sub t0, a1, t1
        addi t0, t0, 0x30
        sb t0, 30(s2)
        addi t0, zero, 10
        sb t0, 31(s2)
        addi a1, s2, 16
        addi a2, zero, 16
        addi a7, zero, 4        ; console out
        ecall
        addi a0, zero, 0
        addi a7, zero, 3        ; Ret
        ecall
kid:    addi t0, zero, 0x62     ; b
        sb t0, 0(s1)
        sb t0, -1(s3)
        sb t0, 0(s3)
        sb t0, 4(s3)
        sb t0, 8(s3)            ; behind what is put
        addi a1, s2, 0
        addi a2, zero, 1
        addi a3, s1, 0
        lui a4, 1
        addi a4, a4, 5
        addi a5, zero, 0
        addi a7, zero, 25       ; FPUT: f is 4,101 bytes
        ecall
        addi a1, s2, 1
        addi a5, zero, 1
        ecall                   ; g has 4,101 more
        lui s5, 0xc0020         ; h, in slot 2
        li t0, 0x31465444
        sw t0, 0(s5)
        addi t0, zero, 1
        sw t0, 4(s5)            ; the version
        sw t0, 24(s5)           ; the length of the name
        addi t0, zero, 4
        sw t0, 12(s5)           ; the length of the content
        addi t0, zero, 0x68
        sb t0, 28(s5)
        addi a0, zero, 0
        addi a7, zero, 3
        ecall
