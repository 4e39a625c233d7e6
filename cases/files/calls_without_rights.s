; A byte of the name that may not be read stops the caller, else the least one of data or buffer does, whether the file is there or not. Each call is
; made by a process of its own, and the root writes to the console the number of its cause and the value.
;
;   s0  what is told        s1  the name        s2  its length        s3  the number of the call
.segment 0x1000 1
        lui s0, 2
        li s1, 0x2fff
        addi s2, zero, 2
        addi a3, zero, 0
        addi a4, zero, 0
        addi a5, zero, 0
        addi s3, zero, 24       ; FNEW: its second byte
        jal ra, try
        li s1, 0x2fff
        addi s2, zero, 2
        addi a3, zero, 0
        addi a4, zero, 1
        addi a5, zero, 0
        addi s3, zero, 25       ; FPUT: the name comes before the data
        jal ra, try
        li s1, 0x2000
        addi s2, zero, 3
        li a3, 0x2fff
        addi a4, zero, 2
        addi a5, zero, 0
        addi s3, zero, 25       ; FPUT: the data
        jal ra, try
        li s1, 0x2fff
        addi s2, zero, 2
        addi a3, zero, 0
        addi a4, zero, 1
        addi a5, zero, 0
        addi s3, zero, 26       ; FGET: the name comes before the buffer
        jal ra, try
        li s1, 0x2000
        addi s2, zero, 3
        li a3, 0x2fff
        addi a4, zero, 2
        addi a5, zero, 0
        addi s3, zero, 26       ; FGET: the buffer
        jal ra, try
        li s1, 0x2fff
        addi s2, zero, 2
        addi a3, zero, 0
        addi a4, zero, 0
        addi a5, zero, 0
        addi s3, zero, 27       ; FLEN: its second byte
        jal ra, try
        li s1, 0xffffffff
        addi s2, zero, 1
        addi a3, zero, 0
        addi a4, zero, 0
        addi a5, zero, 0
        addi s3, zero, 28       ; FDEL: the last byte of memory
        jal ra, try
        addi a0, zero, 0
        addi a7, zero, 3        ; Ret
        ecall
try:    addi a1, zero, 1
        addi a7, zero, 16       ; FORK
        ecall
        bne a0, zero, kid
        addi a7, zero, 17       ; WAIT
        ecall
        sw a1, 16(s0)           ; the cause
        sw a2, 20(s0)           ; the value
        addi a1, s0, 16
        addi a2, zero, 8
        addi a7, zero, 4        ; console out
        ecall
        jalr zero, 0(ra)
kid:    addi a1, s1, 0
        addi a2, s2, 0
        addi a7, s3, 0
        ecall
        addi a7, zero, 3
        ecall
.segment 0x2000 3
        .byte 0x6f              ; one
        .byte 0x6e
        .byte 0x65
        .zero 29
