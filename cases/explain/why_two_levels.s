; A byte comes up through two joins: thread 2 of thread 0 stores it, thread 0 joins it, and the root joins thread 0. Then thread 1 has stored it, too.
.segment 0x1000 1
        addi a1, zero, 0
        addi a7, zero, 18       ; TFORK of child 0
        ecall
        bne a0, zero, first
        addi a1, zero, 1
        ecall                   ; and of child 1
        bne a0, zero, store
        addi a1, zero, 0
        addi a7, zero, 19       ; TJOIN of child 0
        ecall
        addi a1, zero, 1
        ecall                   ; and of child 1, which is in conflict
        addi a7, zero, 3
        ecall
first:  addi a1, zero, 2
        addi a7, zero, 18       ; TFORK of its child 2
        ecall
        bne a0, zero, store
        addi a7, zero, 19       ; TJOIN of it
        ecall
        addi a7, zero, 3
        ecall
store:  lui t0, 2
        sb a1, 4(t0)            ; 1 by thread 1, 2 by thread 2 of thread 0
        addi a7, zero, 3
        ecall
.segment 0x2000 3
        .zero 8
