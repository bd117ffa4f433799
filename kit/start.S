# Where a hart begins, and the one return gate of a module.
#ifndef MONDRIX_NAME
#define MONDRIX_NAME "module"
#endif
        .cfi_sections .debug_frame
        .section .text.start, "ax", @progbits

# Runs the constructors, calls main(1, {MONDRIX_NAME, 0}, {0}), and leaves by exit with its answer. Each hart has these
# words, and the bytes of the name, on its own stack.
        .globl  start
        .type   start, @function
start:  .cfi_startproc
        .cfi_undefined ra
        lla     tp, __tls_base
        call    mondrix_guard
        call    __libc_init_array
        lla     t0, name
        lla     t1, name_end
1:      addi    t1, t1, -4
        lw      t2, 0(t1)
        addi    sp, sp, -4
        sw      t2, 0(sp)
        bne     t1, t0, 1b
        mv      t0, sp
        addi    sp, sp, -16
        sw      t0, 0(sp)
        sw      zero, 4(sp)
        li      a0, 1
        mv      a1, sp
        addi    a2, sp, 4
        call    main
        call    exit
        .cfi_endproc
        .size   start, . - start

# Its bytes are a multiple of 16, as sp is one.
name:   .asciz  MONDRIX_NAME
1:      .space  (name - 1b) & 15
name_end:

# Every gate of the module leaves here.
        .globl  mondrix_return
        .type   mondrix_return, @function
mondrix_return:
        .cfi_startproc
        .cfi_register s11, s10
        .cfi_register s10, s9
        .cfi_undefined s9
        ret
        .cfi_endproc
        .size   mondrix_return, . - mondrix_return
