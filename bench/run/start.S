# Calls main on the stack that the machine gives, and leaves with its answer.
        .text
        .globl  start
start:  call    main
        li      a7, 1
        ecall
