; A child for each cause with which a space can stop. Children 0 to 11 are processes, each with four words of code of its own from `first` on;
; 12 and 13 are made by Put.
.segment 0x1000 1
        addi s0, zero, 0
        addi s1, zero, 12
fork:   addi a1, s0, 0
        addi a7, zero, 16       ; FORK of child s0
        ecall
        bne a0, zero, kid
        addi s0, s0, 1
        bne s0, s1, fork
        addi a1, zero, 12
        addi a0, zero, 192      ; Start and Limit; a6 is 0
        addi a7, zero, 1        ; Put
        ecall
        addi a1, zero, 13
        addi a0, zero, 0        ; child 13 is made, and not started
        ecall
        addi a7, zero, 3
        ecall
kid:    slli t0, s0, 4
        li t1, first
        add t0, t0, t1
        jalr zero, 0(t0)
first:  jalr zero, 2(zero)      ; child 0: to an address that is no multiple of 4
        .zero 12
        jal zero, 0x5000        ; child 1: to a page that may not be fetched
        .zero 12
        .word 0xffffffff        ; child 2: no instruction
        .zero 12
        ebreak                  ; child 3
        .zero 12
        lw zero, 1(zero)        ; child 4: a load from an odd address
        .zero 12
        lw zero, 8(zero)        ; child 5: from a page that may not be read
        .zero 12
        sh zero, 3(zero)        ; child 6: a store to an odd address
        .zero 12
        sw zero, 12(zero)       ; child 7: to a page that may not be written
        .zero 12
        addi a7, zero, 0        ; child 8: no call has number 0
        ecall
        .zero 8
        jal zero, clash         ; child 9
        .zero 12
spin:   jal zero, spin          ; child 10: until its fuel ends
        .zero 12
        addi a0, zero, 11       ; child 11
        addi a7, zero, 3        ; Ret
        ecall
        .zero 4
clash:  addi a1, zero, 0
        addi a7, zero, 18       ; TFORK
        ecall
        bne a0, zero, both
        lui t0, 2
        addi t1, zero, 1
        sb t1, 5(t0)            ; the byte that its thread writes too
        addi a7, zero, 19       ; TJOIN
        ecall
both:   lui t0, 2
        addi t1, zero, 1
        sb t1, 5(t0)
        addi a7, zero, 3
        ecall
.segment 0x2000 3
        .zero 8
