#define ANSWER a0
        .globl  product
product:
        mul     ANSWER, a0, a1
        ret
