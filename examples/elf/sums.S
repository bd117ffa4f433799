# A module that adds up the words of a table: code, data, and words that begin as zero.

        .text
        .globl  start
start:  la      a0, values
        li      a1, 4
        jal     ra, sum
        la      t0, total
        sw      a0, 0(t0)
        li      a7, 1
        ecall

        # a0: the first word; a1: how many there are, 1 or more. Their sum goes to a0.
        .globl  sum
sum:    mv      t1, a0
        li      a0, 0
again:  lw      t2, 0(t1)
        add     a0, a0, t2
        addi    t1, t1, 4
        addi    a1, a1, -1
        bnez    a1, again
        ret

        .data
        .globl  values
values: .word   3, 5, 8, 13
        .globl  greeting
greeting:
        .asciz  "sums"
        .size   greeting, . - greeting

        .bss
        .balign 4
        .globl  total
total:  .space  4
        .globl  scratch
scratch:
        .space  40
