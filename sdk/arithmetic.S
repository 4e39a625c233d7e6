# Multiplication and division of words, and products of 64 bits. RV32I has no instructions for them, so compilers call these functions.
#
# libgcc's floats multiply by inline assembly that calls __mulsi3 and counts on it to change ra and a0 to a3 alone. So
# __mulsi3 keeps all other registers; divisions change a0 to a3, t0 and t1; __muldi3 changes any that a function may change.
# examples/registers.c tries it.

        .macro  function name
        .section .text.\name, "ax", @progbits
        .globl  \name
        .type   \name, @function
        .balign 4
\name:
        .endm

# a0 * a1. Four bits of the smaller factor a turn: a2 is the larger one, shifted.
        function __mulsi3
        mv      a2, a0
        bgeu    a0, a1, 1f
        mv      a2, a1
        mv      a1, a0
1:      li      a0, 0
2:      andi    a3, a1, 1
        beqz    a3, 3f
        add     a0, a0, a2
3:      slli    a2, a2, 1
        andi    a3, a1, 2
        beqz    a3, 4f
        add     a0, a0, a2
4:      slli    a2, a2, 1
        andi    a3, a1, 4
        beqz    a3, 5f
        add     a0, a0, a2
5:      slli    a2, a2, 1
        andi    a3, a1, 8
        beqz    a3, 6f
        add     a0, a0, a2
6:      slli    a2, a2, 1
        srli    a1, a1, 4
        bnez    a1, 2b
        ret
        .size   __mulsi3, . - __mulsi3

# (a1:a0) * (a3:a2), the lower 64 bits. Of the mixed products the lower words count, in the upper word: t0. The product of
# the lower words is made of four products of their halves, side by side, so that each shift serves two of them:
# t3 = a4 * a6, t4 = a5 * a6, t5 = a4 * a7, t6 = a5 * a7, where a4 and a5 are the halves of one factor, a6 and a7 of the
# smaller one.
        function __muldi3
        or      a4, a1, a3
        li      t0, 0
        beqz    a4, 1f
        mv      t1, ra
        mv      a4, a0
        mv      a5, a2
        mv      a6, a3
        mv      a0, a1
        mv      a1, a2
        call    __mulsi3
        mv      t0, a0
        mv      a0, a4
        mv      a1, a6
        call    __mulsi3
        add     t0, t0, a0
        mv      a0, a4
        mv      a2, a5
        mv      ra, t1
1:      bgeu    a0, a2, 2f
        mv      a1, a0
        mv      a0, a2
        mv      a2, a1
2:      srli    a7, a2, 16
        slli    a6, a2, 16
        srli    a6, a6, 16
        srli    a5, a0, 16
        slli    a4, a0, 16
        srli    a4, a4, 16
        li      t3, 0
        li      t4, 0
        li      t5, 0
        li      t6, 0
        beqz    a7, short

        .macro  both bit
        andi    a0, a6, \bit
        beqz    a0, 3f
        add     t3, t3, a4
        add     t4, t4, a5
3:      andi    a0, a7, \bit
        beqz    a0, 4f
        add     t5, t5, a4
        add     t6, t6, a5
4:      slli    a4, a4, 1
        slli    a5, a5, 1
        .endm
long:   both    1
        both    2
        both    4
        both    8
        srli    a6, a6, 4
        srli    a7, a7, 4
        or      a0, a6, a7
        bnez    a0, long

        # the middle ones count from bit 16 on
        add     t4, t4, t5
        sltu    a1, t4, t5
        slli    a1, a1, 16
        add     t6, t6, a1
sum:    slli    a0, t4, 16
        add     a0, a0, t3
        sltu    a1, a0, t3
        srli    t4, t4, 16
        add     a1, a1, t4
        add     a1, a1, t6
        add     a1, a1, t0
        ret

        .macro  one bit
        andi    a0, a6, \bit
        beqz    a0, 3f
        add     t3, t3, a4
        add     t4, t4, a5
3:      slli    a4, a4, 1
        slli    a5, a5, 1
        .endm
short:  one     1
        one     2
        one     4
        one     8
        srli    a6, a6, 4
        bnez    a6, short
        j       sum
        .size   __muldi3, . - __muldi3

# Division. By 0 it gives what the M extension gives: all ones, and the dividend as the rest.
        .section .text.division, "ax", @progbits
        .balign 4

        .globl  __divsi3
        .type   __divsi3, @function
__divsi3:
        bltz    a0, 1f
        bgez    a1, divide
        neg     a1, a1
        j       2f
1:      neg     a0, a0
        bgtz    a1, 2f
        neg     a1, a1
        j       divide
2:      mv      t1, ra
        jal     divide
        neg     a0, a0
        jr      t1
        .size   __divsi3, . - __divsi3

        .globl  __modsi3
        .type   __modsi3, @function
__modsi3:
        mv      t1, ra
        bgez    a1, 1f
        neg     a1, a1
1:      bltz    a0, 2f
        jal     divide
        mv      a0, a1
        jr      t1
2:      neg     a0, a0
        jal     divide
        neg     a0, a1
        jr      t1
        .size   __modsi3, . - __modsi3

        .globl  __umodsi3
        .type   __umodsi3, @function
__umodsi3:
        mv      t1, ra
        jal     divide
        mv      a0, a1
        jr      t1
        .size   __umodsi3, . - __umodsi3

# a0 / a1; a1 becomes the rest. The divisor, in a2, is shifted up by four bits until 16 times it is above the dividend. On its
# way down each digit of the quotient is found: 8, 4, 2 and 1 times the divisor are taken off if they fit. (n / 8 is compared
# with d, since 8 * d may be too long for a word.)
        .globl  __udivsi3
        .type   __udivsi3, @function
__udivsi3:
divide: mv      a2, a1
        mv      a1, a0
        li      a0, 0
        bltu    a1, a2, 7f
        beqz    a2, 8f
        li      t0, 0
        srli    a3, a1, 4
        bltu    a3, a2, 3f
1:      slli    a2, a2, 4
        addi    t0, t0, 1
        bgeu    a3, a2, 1b
        j       3f
2:      slli    a0, a0, 4
        srli    a2, a2, 4
3:      srli    a3, a1, 3
        bltu    a3, a2, 4f
        slli    a3, a2, 3
        sub     a1, a1, a3
        addi    a0, a0, 8
4:      srli    a3, a1, 2
        bltu    a3, a2, 5f
        slli    a3, a2, 2
        sub     a1, a1, a3
        addi    a0, a0, 4
5:      srli    a3, a1, 1
        bltu    a3, a2, 6f
        slli    a3, a2, 1
        sub     a1, a1, a3
        addi    a0, a0, 2
6:      bltu    a1, a2, 9f
        sub     a1, a1, a2
        addi    a0, a0, 1
9:      addi    t0, t0, -1
        bgez    t0, 2b
7:      ret
8:      li      a0, -1
        ret
        .size   __udivsi3, . - __udivsi3
