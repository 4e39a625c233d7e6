; Every instruction, on operands at their edges: one child a row, which executes the row's word at 0x1000 and no more, with the row's operands in x5
; and x6. The report tells pc behind it, or the trap; the root compares what came to x1 and x7, of which one is 0, with the row's last number, and
; ends at a breakpoint at the first row that differs: s0 is its number. Words and results are another emulator's.
;
;   s0  the row's number        s1  the row        s2  the register block        s3  the child's page, as it is at first
.segment 0x10000 1
        addi s0, zero, 0
        li s1, rows
        lui s2, 0x30
        lui s3, 0x20
        lui s4, 1
        sw s4, 0(s2)            ; pc is 0x1000
next:   lw t0, 0(s1)
        sw t0, 0(s3)
        lw t0, 4(s1)
        sw t0, 20(s2)           ; x5
        lw t0, 8(s1)
        sw t0, 24(s2)           ; x6
        li a0, 0x70d3           ; Regs, Copy, Perm 7, Start and Limit
        addi a1, s0, 0
        addi a2, s2, 0
        addi a3, s3, 0
        addi a4, s4, 0
        addi a5, s4, 0
        addi a6, zero, 1        ; one event
        addi a7, zero, 1        ; Put
        ecall
        addi a0, zero, 1        ; Regs
        addi a2, s2, 512
        addi a7, zero, 2        ; Get
        ecall
        lw t0, 516(s2)          ; x1
        lw t1, 540(s2)          ; x7
        add t0, t0, t1
        lw t1, 12(s1)
        bne t0, t1, other
        addi s0, s0, 1
        addi s1, s1, 16
        addi t0, zero, 69
        bne s0, t0, next
        addi t0, zero, 2
        sh t0, 0(s2)            ; the last child begins at 2, which is no multiple of 4
        addi a0, zero, 65       ; Regs and Start
        addi a1, s0, 0
        addi a2, s2, 0
        addi a7, zero, 1        ; Put
        ecall
        addi s3, s3, 32         ; bytes are stored at 0x20020, and what stands beside them stays
        li t0, 0x11223344
        sb t0, 1(s3)
        li t2, 0x017f4480
        jal ra, look
        sh t0, 2(s3)
        li t2, 0x33444480
        jal ra, look
        sw t0, 0(s3)
        addi t2, t0, 0
        jal ra, look
        addi a0, zero, 0
        addi a7, zero, 3        ; Ret
        ecall
look:   lw t1, 0(s3)
        bne t1, t2, other
        jalr zero, 0(ra)
other:  ebreak
; A row: the word, x5, x6, and what is to come.
rows:
        .word 0xfffff3b7        ; 0: lui
        .word 0x0
        .word 0x0
        .word 0xfffff000
        .word 0x12345397        ; 1: auipc
        .word 0x0
        .word 0x0
        .word 0x12346000
        .word 0xfff28393        ; 2: addi
        .word 0x80000000
        .word 0x0
        .word 0x7fffffff
        .word 0xfff2a393        ; 3: slti
        .word 0x80000000
        .word 0x0
        .word 0x1
        .word 0xfff2a393        ; 4: slti
        .word 0x0
        .word 0x0
        .word 0x0
        .word 0xfff2b393        ; 5: sltiu
        .word 0x7fffffff
        .word 0x0
        .word 0x1
        .word 0xfff2b393        ; 6: sltiu
        .word 0xffffffff
        .word 0x0
        .word 0x0
        .word 0x8002c393        ; 7: xori
        .word 0x5555
        .word 0x0
        .word 0xffffad55
        .word 0x7ff2e393        ; 8: ori
        .word 0x80000000
        .word 0x0
        .word 0x800007ff
        .word 0x8002f393        ; 9: andi
        .word 0xffffffff
        .word 0x0
        .word 0xfffff800
        .word 0x01f29393        ; 10: slli
        .word 0x3
        .word 0x0
        .word 0x80000000
        .word 0x01f2d393        ; 11: srli
        .word 0x80000000
        .word 0x0
        .word 0x1
        .word 0x41f2d393        ; 12: srai
        .word 0x80000000
        .word 0x0
        .word 0xffffffff
        .word 0x41f2d393        ; 13: srai
        .word 0x7fffffff
        .word 0x0
        .word 0x0
        .word 0x006283b3        ; 14: add
        .word 0xffffffff
        .word 0x2
        .word 0x1
        .word 0x406283b3        ; 15: sub
        .word 0x0
        .word 0x1
        .word 0xffffffff
        .word 0x006293b3        ; 16: sll
        .word 0x1
        .word 0x21
        .word 0x2
        .word 0x0062a3b3        ; 17: slt
        .word 0x80000000
        .word 0x7fffffff
        .word 0x1
        .word 0x0062a3b3        ; 18: slt
        .word 0x7fffffff
        .word 0x80000000
        .word 0x0
        .word 0x0062b3b3        ; 19: sltu
        .word 0x80000000
        .word 0x7fffffff
        .word 0x0
        .word 0x0062b3b3        ; 20: sltu
        .word 0x7fffffff
        .word 0x80000000
        .word 0x1
        .word 0x0062c3b3        ; 21: xor
        .word 0xf0f0f0f0
        .word 0xff00ff00
        .word 0xff00ff0
        .word 0x0062d3b3        ; 22: srl
        .word 0x80000000
        .word 0x3f
        .word 0x1
        .word 0x4062d3b3        ; 23: sra
        .word 0x80000000
        .word 0x24
        .word 0xf8000000
        .word 0x0062e3b3        ; 24: or
        .word 0xf0f0f0f0
        .word 0xff00ff00
        .word 0xfff0fff0
        .word 0x0062f3b3        ; 25: and
        .word 0xf0f0f0f0
        .word 0xff00ff00
        .word 0xf000f000
        .word 0x1232830f        ; 26: fence
        .word 0x1
        .word 0x2
        .word 0x0
        .word 0x80628063        ; 27: beq
        .word 0x80000000
        .word 0x7fffffff
        .word 0x0
        .word 0x7e628ee3        ; 28: beq
        .word 0x7fffffff
        .word 0x80000000
        .word 0x0
        .word 0x00628863        ; 29: beq
        .word 0x80000000
        .word 0x80000000
        .word 0x0
        .word 0x80629063        ; 30: bne
        .word 0x80000000
        .word 0x7fffffff
        .word 0x0
        .word 0x7e629ee3        ; 31: bne
        .word 0x7fffffff
        .word 0x80000000
        .word 0x0
        .word 0x00629863        ; 32: bne
        .word 0x80000000
        .word 0x80000000
        .word 0x0
        .word 0x8062c063        ; 33: blt
        .word 0x80000000
        .word 0x7fffffff
        .word 0x0
        .word 0x7e62cee3        ; 34: blt
        .word 0x7fffffff
        .word 0x80000000
        .word 0x0
        .word 0x0062c863        ; 35: blt
        .word 0x80000000
        .word 0x80000000
        .word 0x0
        .word 0x8062d063        ; 36: bge
        .word 0x80000000
        .word 0x7fffffff
        .word 0x0
        .word 0x7e62dee3        ; 37: bge
        .word 0x7fffffff
        .word 0x80000000
        .word 0x0
        .word 0x0062d863        ; 38: bge
        .word 0x80000000
        .word 0x80000000
        .word 0x0
        .word 0x8062e063        ; 39: bltu
        .word 0x80000000
        .word 0x7fffffff
        .word 0x0
        .word 0x7e62eee3        ; 40: bltu
        .word 0x7fffffff
        .word 0x80000000
        .word 0x0
        .word 0x0062e863        ; 41: bltu
        .word 0x80000000
        .word 0x80000000
        .word 0x0
        .word 0x8062f063        ; 42: bgeu
        .word 0x80000000
        .word 0x7fffffff
        .word 0x0
        .word 0x7e62fee3        ; 43: bgeu
        .word 0x7fffffff
        .word 0x80000000
        .word 0x0
        .word 0x0062f863        ; 44: bgeu
        .word 0x80000000
        .word 0x80000000
        .word 0x0
        .word 0x000280e7        ; 45: jalr
        .word 0x2001
        .word 0x0
        .word 0x1004
        .word 0x000280e7        ; 46: jalr
        .word 0x2002
        .word 0x0
        .word 0x0
        .word 0x800ff0ef        ; 47: jal by -4096
        .word 0x0
        .word 0x0
        .word 0x1004
        .word 0x002000ef        ; 48: jal by 2
        .word 0x0
        .word 0x0
        .word 0x0
        .word 0x00500163        ; 49: beq by 2
        .word 0x1
        .word 0x0
        .word 0x0
        .word 0x00500163        ; 50: beq by 2
        .word 0x0
        .word 0x0
        .word 0x0
        .word 0x00100073        ; 51: ebreak
        .word 0x0
        .word 0x0
        .word 0x0
        .word 0xffffffff        ; 52: illegal
        .word 0x0
        .word 0x0
        .word 0x0
        .word 0x00028383        ; 53: lb
        .word 0x1020
        .word 0x0
        .word 0xffffff80
        .word 0x00029383        ; 54: lh
        .word 0x1020
        .word 0x0
        .word 0xffffff80
        .word 0x00029383        ; 55: lh
        .word 0x1022
        .word 0x0
        .word 0x17f
        .word 0x0002a383        ; 56: lw
        .word 0x1020
        .word 0x0
        .word 0x17fff80
        .word 0x0002c383        ; 57: lbu
        .word 0x1020
        .word 0x0
        .word 0x80
        .word 0x0002d383        ; 58: lhu
        .word 0x1020
        .word 0x0
        .word 0xff80
        .word 0x00c2a383        ; 59: lw by 12
        .word 0x1014
        .word 0x0
        .word 0x17fff80
        .word 0x00029383        ; 60: lh
        .word 0x1021
        .word 0x0
        .word 0x0
        .word 0x0002a383        ; 61: lw
        .word 0xfffffffe
        .word 0x0
        .word 0x0
        .word 0x0002c383        ; 62: lbu
        .word 0x2000
        .word 0x0
        .word 0x0
        .word 0x0002a003        ; 63: lw into x0
        .word 0x2000
        .word 0x0
        .word 0x0
        .word 0x00629023        ; 64: sh
        .word 0x1021
        .word 0x0
        .word 0x0
        .word 0x0062a023        ; 65: sw
        .word 0x2000
        .word 0x0
        .word 0x0
        .word 0x40001013        ; 66: slli with the mark of srai
        .word 0x0
        .word 0x0
        .word 0x0
        .word 0x0000100f        ; 67: fence.i
        .word 0x0
        .word 0x0
        .word 0x0
        .word 0x02000033        ; 68: mul
        .word 0x0
        .word 0x0
        .word 0x0
; The page of a child: its word, and from 0x1020 on four bytes to load.
.segment 0x20000 3
        .zero 32
        .byte 0x80
        .byte 0xff
        .byte 0x7f
        .byte 0x01
.segment 0x30000 3
        .zero 1024
