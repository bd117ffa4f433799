        .globl  sum
sum:    add     a0, a0, a1
        ret
