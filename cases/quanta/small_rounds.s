; A process for each row, which lets threads 0 and 1 run in rounds and returns what the row says.
;
;   s0  the row's number, which is the process's        s2  0x2000, which all may read and write
.segment 0x1000 1
        addi s0, zero, 0
        lui s2, 2
next:   addi a1, s0, 0
        addi a7, zero, 16       ; FORK
        ecall
        bne a0, zero, row
        addi s0, s0, 1
        addi t0, zero, 15
        bne s0, t0, next
        addi a7, zero, 3        ; Ret
        ecall
row:    slli t0, s0, 2
        lui t1, 4
        add t0, t0, t1
        lw t0, 0(t0)
        jalr zero, 0(t0)

; Makes threads 0 and 1, which begin at t1 and t2.
make:   lui a2, 3
        sw t1, 0(a2)
        addi a0, zero, 193      ; Regs, Start and Limit, which is 0
        addi a1, zero, 0
        addi a6, zero, 0
        addi a7, zero, 1        ; Put
        ecall
        sw t2, 0(a2)
        addi a0, zero, 193
        addi a1, zero, 1
        ecall
        jalr zero, 0(ra)
; A quantum of 100 events for each of both.
start:  addi a1, zero, 0
        addi a2, zero, 2
        addi a3, zero, 100
        addi a7, zero, 20       ; QSTART
        ecall
        jalr zero, 0(ra)
commit: addi a1, zero, 0
        addi a2, zero, 2
        addi a7, zero, 21       ; QCOMMIT
        ecall
        jalr zero, 0(ra)
; The page a4 of the caller may be read and written from now on.
permit: lui a0, 3
        addi a0, a0, 16         ; Perm, and the permission 3
        lui a1, 16
        addi a1, a1, -1         ; a child that is not there
        lui a5, 1
        addi a7, zero, 2        ; Get
        ecall
        jalr zero, 0(ra)

; 0: the word 0x100 of thread 0 and the word 1 of thread 1, stored over 0, give 0x101: of each the bytes that are not 0
torn:   li t1, hundred
        li t2, one
        jal ra, make
        jal ra, start
        jal ra, commit
        lw a0, 0(s2)
        addi a7, zero, 3
        ecall
hundred: addi t0, zero, 0x100
        sw t0, 0(s2)
        addi a7, zero, 3
        ecall
one:    addi t0, zero, 1
        sw t0, 0(s2)
        addi a7, zero, 3
        ecall

; 1: thread 0 stores 7; thread 1 stores 9 and then what stood there: a byte that is as in the snapshot is not brought, so 7 stands
back:   li t1, seven
        li t2, nine
        jal ra, make
        jal ra, start
        jal ra, commit
        lbu a0, 0(s2)
        addi a7, zero, 3
        ecall
seven:  addi t0, zero, 7
        sb t0, 0(s2)
        addi a7, zero, 3
        ecall
nine:   addi t0, zero, 9
        sb t0, 0(s2)
        sb zero, 0(s2)
        addi a7, zero, 3
        ecall

; 2: thread 0 stores 5 at 0xBFFFFFFC and 6 at 0xC0000000, which is in a page of its own. The commit brings the 5 and leaves the caller's 9, and the
; second start leaves the thread's 6, which it returns. 0x95
border: lui a4, 0xbffff
        jal ra, permit
        lui a4, 0xc0000
        jal ra, permit
        addi t0, zero, 9
        sb t0, 0(a4)
        li t1, across
        li t2, ends
        jal ra, make
        lui a0, 3
        addi a0, a0, 16         ; Perm, and the permission 3
        addi a1, zero, 0
        lui a4, 0xc0000
        lui a5, 1
        addi a7, zero, 1        ; Put
        ecall
        jal ra, start
        jal ra, commit
        jal ra, start
        jal ra, commit
        lui a4, 0xc0000
        lbu a0, -4(a4)
        lbu t0, 0(a4)
        slli t0, t0, 4
        add a0, a0, t0
        addi a7, zero, 3
        ecall
across: lui t1, 0xc0000
        addi t0, zero, 5
        sb t0, -4(t1)
        addi t0, zero, 6
        sb t0, 0(t1)
        addi t0, zero, 60
turn:   addi t0, t0, -1
        bne t0, zero, turn      ; 120 events in this loop, so the quantum ends in it
        lbu a0, 0(t1)
ends:   addi a7, zero, 3
        ecall

; 3: what threads stored until they were stopped by a trap is brought, they do not wait, and no start lets them go on: 0x017
traps:  li t1, breaks
        li t2, faults
        jal ra, make
        jal ra, start
        jal ra, commit
        addi s4, a1, 0
        jal ra, start
        add s4, s4, a1
        slli s4, s4, 8
        lbu a0, 0(s2)
        lbu t0, 4(s2)
        add a0, a0, t0
        add a0, a0, s4
        addi a7, zero, 3
        ecall
breaks: addi t0, zero, 7
        sb t0, 0(s2)
        ebreak
faults: addi t0, zero, 16
        sb t0, 4(s2)
        lw t0, 0(zero)

; 4: thread 0 waits for a thread of its own, which has more events than the quantum: the quantum does not count them, so one round brings 3
family: li t1, parent
        li t2, ends
        jal ra, make
        jal ra, start
        jal ra, commit
        slli a1, a1, 8
        lbu a0, 0(s2)
        add a0, a0, a1
        addi a7, zero, 3
        ecall
parent: addi a1, zero, 5
        addi a7, zero, 18       ; TFORK
        ecall
        bne a0, zero, long
        addi a7, zero, 19       ; TJOIN
        ecall
        addi a0, a2, 0          ; the value
        addi a7, zero, 3
        ecall
long:   addi t0, zero, 200
pass:   addi t0, t0, -1
        bne t0, zero, pass
        addi t0, zero, 3
        sb t0, 0(s2)
        addi a0, zero, 8
        addi a7, zero, 3
        ecall

; 5: between start and commit the caller stores 5 and 6 at neighbouring bytes. Thread 0 stored 7 at the first, so 7 and 6 stand; thread 1 returns
; what it saw, which is what was there at the start
between: li t1, seven
        li t2, reads
        jal ra, make
        jal ra, start
        addi t0, zero, 5
        sb t0, 0(s2)
        addi t0, zero, 6
        sb t0, 1(s2)
        jal ra, commit
        lhu a0, 0(s2)
        addi a7, zero, 3
        ecall
reads:  lhu a0, 0(s2)
        addi a7, zero, 3
        ecall

; 6: a commit without a start: both wait, and nothing comes of threads that have no snapshot
early:  li t1, seven
        li t2, one
        jal ra, make
        jal ra, commit
        slli a1, a1, 8
        lbu a0, 0(s2)
        add a0, a0, a1
        addi a7, zero, 3
        ecall

; 7: a commit brings what a child of TFORK stored, over what the caller has stored meanwhile, and asks for no conflict. Its snapshot is new then, so a
; TJOIN behind it finds nothing changed and leaves the caller's 1: 0x1401, 20 being the cause ret
forked: addi a1, zero, 0
        addi a7, zero, 18       ; TFORK
        ecall
        bne a0, zero, seven
        addi t0, zero, 5
        sb t0, 0(s2)
        jal ra, commit
        lbu s4, 0(s2)           ; 7
        addi t0, s4, -6
        sb t0, 0(s2)
        addi a1, zero, 0
        addi a7, zero, 19       ; TJOIN
        ecall
        slli a1, a1, 8
        lbu a0, 0(s2)
        add a0, a0, a1
        addi a7, zero, 3
        ecall

; 8: a second commit behind the first brings nothing: the caller's 5 stands
twice:  li t1, seven
        li t2, ends
        jal ra, make
        jal ra, start
        jal ra, commit
        addi t0, zero, 5
        sb t0, 0(s2)
        jal ra, commit
        lbu a0, 0(s2)
        addi a7, zero, 3
        ecall

; 9: a start is of threads that wait, and of no thread that has returned: none is started, and the memory of thread 0 keeps its 7 where the caller has 5
ended:  li t1, seven
        li t2, ends
        jal ra, make
        jal ra, start
        jal ra, commit
        addi t0, zero, 5
        sb t0, 0(s2)
        jal ra, start
        slli s4, a1, 8
        lui a4, 5
        jal ra, permit
        addi a0, zero, 2        ; Copy
        addi a1, zero, 0
        addi a3, s2, 0
        ecall                   ; Get
        lbu a0, 0(a4)
        slli a0, a0, 4
        lbu t0, 0(s2)
        add a0, a0, t0
        add a0, a0, s4
        addi a7, zero, 3
        ecall

; 10: thread 0 may write a page from a call of its own on. The commit brings the 8 that it stored there to a page that the caller may not touch, and
; not the permission: the second start takes it from the thread, whose next store there is a store-fault. The caller may read it from its own call on
rights: li t1, gains
        li t2, ends
        jal ra, make
        jal ra, start
        jal ra, commit
        jal ra, start
        jal ra, commit
        lui a4, 6
        jal ra, permit
        lbu a0, 0(a4)
        addi a7, zero, 3
        ecall
gains:  lui a4, 6
        jal ra, permit
        addi t0, zero, 8
        sb t0, 0(a4)
        addi t0, zero, 60
more:   addi t0, t0, -1
        bne t0, zero, more
        sb t0, 4(a4)

; 11: thread 0 adds 1 to a word in each 4 events, and thread 1 copies what it sees of it. Behind three rounds there are 75, and thread 1 has seen the 50
; that were there at its third start; both wait: 0x324d with the 2 of both
sees:   li t1, adds
        li t2, copies
        jal ra, make
        jal ra, start
        jal ra, commit
        jal ra, start
        jal ra, commit
        jal ra, start
        jal ra, commit
        lw a0, 4(s2)
        slli a0, a0, 8
        lw t0, 0(s2)
        add a0, a0, t0
        add a0, a0, a1
        addi a7, zero, 3
        ecall
adds:   lw t0, 0(s2)
        addi t0, t0, 1
        sw t0, 0(s2)
        jal zero, adds
copies: lw t0, 0(s2)
        sw t0, 4(s2)
        jal zero, copies

; 12: both calls wait for the last child of the row, which runs without a limit: QCOMMIT brings the 3 that it stores at its end, behind 400 events. A
; start behind that starts thread 0, which waits, and not the other
last:   addi a1, zero, 1
        addi a7, zero, 18       ; TFORK
        ecall
        bne a0, zero, long
        jal ra, commit
        li t0, seven
        lui a2, 3
        sw t0, 0(a2)
        addi a0, zero, 193
        addi a1, zero, 0
        addi a6, zero, 0
        addi a7, zero, 1        ; Put
        ecall
        lbu s4, 0(s2)
        jal ra, start
        slli s4, s4, 4
        add s4, s4, a1
        slli s4, s4, 4
        jal ra, commit
        lbu a0, 0(s2)
        add a0, a0, s4
        addi a7, zero, 3
        ecall

; 13: rows of one number each: thread 1 begins behind the commit of thread 0, and returns the 7 that it sees
rows:   li t1, seven
        li t2, reads
        jal ra, make
        addi a1, zero, 0
        addi a2, zero, 1
        addi a3, zero, 100
        addi a7, zero, 20       ; QSTART of thread 0 alone
        ecall
        addi a2, zero, 1
        addi a1, zero, 0
        addi a7, zero, 21       ; QCOMMIT of it
        ecall
        addi a1, zero, 1
        addi a7, zero, 20       ; QSTART of thread 1, which returns the 7 that it sees
        ecall
        slli s4, a1, 8
        addi a1, zero, 1
        addi a7, zero, 21
        ecall
        lbu a0, 0(s2)
        add a0, a0, s4
        addi a7, zero, 3
        ecall

; 14: files are each space's own. Thread 0 makes the file a, and finds it in its second quantum, but not the caller's b: 0x10. The caller finds no a
files:  addi t0, zero, 97       ; the letter a
        sb t0, 4(s2)
        addi t0, zero, 98
        sb t0, 5(s2)
        addi a1, s2, 5
        addi a2, zero, 1
        addi a3, zero, 0
        addi a7, zero, 24       ; FNEW of b
        ecall
        li t1, makes
        li t2, ends
        jal ra, make
        jal ra, start
        jal ra, commit
        addi a1, s2, 4
        addi a2, zero, 1
        addi a7, zero, 27       ; FLEN of a: 1, NoFile
        ecall
        addi s4, a0, 0
        jal ra, start
        jal ra, commit
        addi a0, s4, 0
        addi a7, zero, 3
        ecall
makes:  addi a1, s2, 4
        addi a2, zero, 1
        addi a3, zero, 0
        addi a7, zero, 24       ; FNEW of a
        ecall
        addi t0, zero, 60
spin:   addi t0, t0, -1
        bne t0, zero, spin
        addi a1, s2, 4
        addi a7, zero, 27       ; FLEN of a: 0
        ecall
        addi t0, a0, 0
        addi a1, s2, 5
        ecall                   ; FLEN of b: 1
        slli a0, a0, 4
        add a0, a0, t0
        addi a7, zero, 3
        ecall
.segment 0x2000 3
        .zero 8
.segment 0x3000 3
        .zero 72                ; the registers of a thread
        .word 0x2000            ; s2
        .zero 60
.segment 0x4000 1
        .word torn
        .word back
        .word border
        .word traps
        .word family
        .word between
        .word early
        .word forked
        .word twice
        .word ended
        .word rights
        .word sees
        .word last
        .word rows
        .word files
