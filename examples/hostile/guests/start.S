# Where a hart begins, and the one return gate of a module.
        .cfi_sections .debug_frame
        .section .text.start, "ax", @progbits

# Calls main with the hart's number, and leaves with its answer.
        .globl  start
        .type   start, @function
start:  .cfi_startproc
        .cfi_undefined ra
        lla     tp, __tls_base
        li      a7, 12
        ecall
        srli    a0, a0, 8
        call    main
        call    mondrix_leave
        .cfi_endproc
        .size   start, . - start

# Every gate of the module leaves here.
        .globl  mondrix_return
        .type   mondrix_return, @function
mondrix_return:
        .cfi_startproc
        ret
        .cfi_endproc
        .size   mondrix_return, . - mondrix_return
