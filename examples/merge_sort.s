; Sorts 64 numbers by merge sort in 14 threads, and writes them to the console.
;
; For readers who know pthreads. A thread is a child with a copy of its parent's memory, made by TFORK; it shares nothing while it runs.
; What it writes below 0xC0000000 comes into its parent's memory when the parent joins it (TJOIN), and not before. So there are no locks:
;
; - Two threads that sort different halves of one array in place never meet. The joins put both halves together.
; - Had both written one byte, the second join would stop the parent as conflict and name that byte's address, in every run alike.
; - What stands at 0xC0000000 and above is never joined: each thread's own. The space to merge in stands there, as would a stack; at one
;   address below it, two threads' use of it would be a conflict.
; - A thread has its parent's registers too, so arguments need no structure: s0 and s1 say which part of the array it sorts.
;
; Each thread of more than 8 numbers forks two threads for its halves, so there are 2, 4 and 8 of them, and 8 threads sort 8 numbers each.
;
;   s0  the address of the part to be sorted         s3  half the numbers of the part
;   s1  how many numbers it has                      s4  the bytes of a half
;   s2  0 in the root, 1 in a thread                 s5  20, the number of the cause ret
.segment 0x1000 1
        lui s0, 0x10            ; the array, at 0x10000
        addi s1, zero, 64
        addi s2, zero, 0
        addi s5, zero, 20

        ; Fills the array with numbers from 0 to 1,023, by Marsaglia's xorshift with 13, 17 and 5.
        li t0, 2463534242
        addi t1, s0, 0
        addi t2, s0, 256        ; its end
fill:   slli t3, t0, 13
        xor t0, t0, t3
        srli t3, t0, 17
        xor t0, t0, t3
        slli t3, t0, 5
        xor t0, t0, t3
        andi t3, t0, 1023
        sw t3, 0(t1)
        addi t1, t1, 4
        bne t1, t2, fill

        ; Sorts the s1 numbers from s0 on. The root and each thread come here.
sort:   addi t0, zero, 8
        bge t0, s1, few
        srli s3, s1, 1
        slli s4, s3, 2
        addi a1, zero, 1        ; child 1 sorts the first half
        addi a7, zero, 18       ; TFORK, as pthread_create
        ecall
        bne a0, zero, first     ; a0 is 1 in the thread, 0 in its parent
        addi a1, zero, 2        ; child 2 sorts the second half
        ecall
        bne a0, zero, second
        addi a1, zero, 1
        addi a7, zero, 19       ; TJOIN, as pthread_join: the sorted first half is here
        ecall
        bne a1, s5, failed      ; a1 is the cause with which the thread has stopped
        addi a1, zero, 2
        ecall                   ; and the second
        bne a1, s5, failed
        jal zero, merge

        ; A thread begins: it takes its half for its part.
second: add s0, s0, s4
first:  addi s1, s3, 0
        addi s2, zero, 1
        jal zero, sort

        ; A thread was stopped by a trap, so its part is not sorted.
failed: ebreak

        ; At most 8 numbers are sorted by insertion.
few:    slli t1, s1, 2
        add t1, t1, s0          ; the end
        addi t0, s0, 4
insert: bgeu t0, t1, sorted
        lw t2, 0(t0)            ; to be inserted among those before it
        addi t3, t0, 0
shift:  beq t3, s0, place
        lw t4, -4(t3)
        bge t2, t4, place
        sw t4, 0(t3)
        addi t3, t3, -4
        jal zero, shift
place:  sw t2, 0(t3)
        addi t0, t0, 4
        jal zero, insert

        ; Merges the halves into the thread's own memory at 0xD0000000, and copies them back.
merge:  addi t0, s0, 0          ; in the first half
        add t1, s0, s4          ; its end
        addi t2, t1, 0          ; in the second half
        add t3, t1, s4          ; its end
        lui t4, 0xD0000
lesser: beq t0, t1, take_2      ; the first half is used up
        lw t5, 0(t0)
        beq t2, t3, take_1      ; the second half is
        lw t6, 0(t2)
        bge t6, t5, take_1
take_2: beq t2, t3, back        ; both are
        lw t5, 0(t2)
        addi t2, t2, 4
        jal zero, put
take_1: addi t0, t0, 4
put:    sw t5, 0(t4)
        addi t4, t4, 4
        jal zero, lesser
back:   lui t4, 0xD0000
        addi t0, s0, 0
again:  lw t5, 0(t4)
        sw t5, 0(t0)
        addi t4, t4, 4
        addi t0, t0, 4
        bne t0, t3, again

        ; The part is sorted. A thread ends here.
sorted: beq s2, zero, text
        addi a0, zero, 0
        addi a7, zero, 3        ; Ret, as pthread_exit
        ecall

        ; The root writes the numbers, of four digits each and eight on a line, and returns a check value: 0 at first, and with each number
        ; 31 times what it was, and the number.
text:   addi t0, s0, 0
        addi t1, s0, 256
        addi a1, t1, 0          ; the text stands behind the array
        addi t2, a1, 0
        addi a0, zero, 0
number: lw t3, 0(t0)
        slli t4, a0, 5
        sub a0, t4, a0
        add a0, a0, t3
        addi t4, zero, 1000
        jal ra, digit
        addi t4, zero, 100
        jal ra, digit
        addi t4, zero, 10
        jal ra, digit
        addi t4, zero, 1
        jal ra, digit
        addi t0, t0, 4
        addi t5, zero, 32       ; a blank, or at a line's end
        andi t6, t0, 31
        bne t6, zero, part
        addi t5, zero, 10       ; a line feed
part:   sb t5, 0(t2)
        addi t2, t2, 1
        bne t0, t1, number
        sub a2, t2, a1          ; how many bytes
        addi s3, a0, 0
        addi a7, zero, 4        ; console out
        ecall
        addi a0, s3, 0
        addi a7, zero, 3
        ecall

        ; Writes how often t4 is in t3, as a digit, and takes it off.
digit:  addi t5, zero, 48
count:  bltu t3, t4, write
        sub t3, t3, t4
        addi t5, t5, 1
        jal zero, count
write:  sb t5, 0(t2)
        addi t2, t2, 1
        jalr zero, 0(ra)
.segment 0x10000 3
        .zero 576               ; the array, and 320 bytes of text
.segment 0xD0000000 3
        .zero 256
