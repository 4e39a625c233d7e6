# Where a program begins. The kernel has set pc to _start and sp to the image's stack pointer, 0xFFFFFFF0; all other registers are 0.

        .section .text.start, "ax", @progbits
        .globl  _start
        .type   _start, @function
_start:
        # gp and tp first: the linker may shorten an address to one that counts from gp. Both are 0 where no script sets them.
        .option push
        .option norelax
        .weak   __global_pointer$
        .weak   __own_start
        lui     gp, %hi(__global_pointer$)
        addi    gp, gp, %lo(__global_pointer$)
        lui     tp, %hi(__own_start)
        addi    tp, tp, %lo(__own_start)
        .option pop

        # A stack of 1 MB: the topmost 64 KB are there from the start, and Get gives the 960 KB below them the permission to be read
        # and written. It asks a child that is not there, so it waits for no one and brings nothing else.
        li      a7, 2                   # Get
        li      a0, 0x3010              # Perm; readable, writable
        li      a1, 65535
        li      a4, 0xFFF00000
        li      a5, 0x000F0000
        ecall

        call    det_main
        .size   _start, . - _start

        # main.c has another det_main, which gives main its arguments and ends by exit. Without it there are no arguments.
        .weak   det_main
        .type   det_main, @function
det_main:
        li      a0, 0
        li      a1, 0
        call    main
        li      a7, 3                   # Ret, with what main returned
        ecall
1:      j       1b
        .size   det_main, . - det_main

        # The first _Thread_local variable, which no one uses (see det.ld).
        .section .tdata.start, "awT", @progbits
        .balign 4
        .word   0
