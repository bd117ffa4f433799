# What each gate of a module does first: gp has the gate's own return, and the arguments stay.
        .cfi_sections .debug_frame
        .section .text.start, "ax", @progbits
        .globl  mondrix_enter
        .type   mondrix_enter, @function
mondrix_enter:
        .cfi_startproc
        .cfi_return_column 3
        .cfi_undefined ra
        lla     tp, __tls_base
        lw      t0, mondrix_guarded
        beqz    t0, first
        jr      gp
        ebreak                          # (no turn comes here)

# The first entry sets the guards of the stacks.
first:  addi    sp, sp, -32
        .cfi_def_cfa_offset 32
        sw      a0, 0(sp)
        sw      a1, 4(sp)
        sw      a2, 8(sp)
        sw      a3, 12(sp)
        sw      a4, 16(sp)
        sw      a5, 20(sp)
        sw      a6, 24(sp)
        sw      a7, 28(sp)
        call    mondrix_guard
        lw      a0, 0(sp)
        lw      a1, 4(sp)
        lw      a2, 8(sp)
        lw      a3, 12(sp)
        lw      a4, 16(sp)
        lw      a5, 20(sp)
        lw      a6, 24(sp)
        lw      a7, 28(sp)
        addi    sp, sp, 32
        .cfi_def_cfa_offset 0
        jr      gp
        .cfi_endproc
        .size   mondrix_enter, . - mondrix_enter
