# The other machine's side: a full-system emulator with RAM at the same place. This goes first, in machine mode, behind
# the RAM that is compared. It starts an image at 0x80000000 in user mode, with the stack that the manifest gives and
# all other registers 0, and serves what the kit's start, exit and console need of the supervisor's calls. At the end,
# by exit or by a fault, it writes registers, pc, cause and RAM to the file `state`. Files go by semihosting.
        .equ    RAM, 0x80000000
        .equ    BYTES, 0x1000000
        .equ    STACK_TOP, 0x81000000

        .text
        .globl  _start
_start: la      t0, trap
        csrw    mtvec, t0
        li      t0, -1
        csrw    pmpaddr0, t0
        li      t0, 0x1f
        csrw    pmpcfg0, t0
        csrw    mstatus, zero
        li      t0, RAM
        csrw    mepc, t0
        la      t0, saved
        csrw    mscratch, t0
        la      a1, console
        call    open
        la      t0, written
        sw      a0, 0(t0)
        li      sp, STACK_TOP
        .irp    i, 1, 3, 4, 5, 6, 7, 8, 9, 10, 11, 12, 13, 14, 15, 16, 17
        li      x\i, 0
        .endr
        .irp    i, 18, 19, 20, 21, 22, 23, 24, 25, 26, 27, 28, 29, 30, 31
        li      x\i, 0
        .endr
        mret

        .balign 4
trap:   csrrw   sp, mscratch, sp
        .irp    i, 1, 3, 4, 5, 6, 7, 8, 9, 10, 11, 12, 13, 14, 15, 16, 17
        sw      x\i, 4*\i(sp)
        .endr
        .irp    i, 18, 19, 20, 21, 22, 23, 24, 25, 26, 27, 28, 29, 30, 31
        sw      x\i, 4*\i(sp)
        .endr
        csrr    t0, mscratch
        sw      t0, 8(sp)
        csrr    t0, mepc
        sw      t0, 128(sp)
        csrr    t1, mcause
        sw      t1, 132(sp)
        li      t2, 8
        bne     t1, t2, end
        li      t2, 2
        beq     a7, t2, write
        li      t2, 12
        beq     a7, t2, self
        li      t2, 13
        bne     a7, t2, end

# exchange
        lw      t1, 0(a0)
        sw      a1, 0(a0)
        sw      t1, 44(sp)
        li      a0, 0
        j       served

# hart 0 in domain 1
self:   li      a0, 1
        j       served

write:  la      t1, written
        sw      a0, 4(t1)
        sw      a1, 8(t1)
        li      a0, 5
        mv      a1, t1
        call    semihost
        lw      a0, 44(sp)

served: sw      a0, 40(sp)
        csrr    t0, mepc
        addi    t0, t0, 4
        csrw    mepc, t0
        lw      t0, 8(sp)
        csrw    mscratch, t0
        .irp    i, 1, 3, 4, 5, 6, 7, 8, 9, 10, 11, 12, 13, 14, 15, 16, 17
        lw      x\i, 4*\i(sp)
        .endr
        .irp    i, 18, 19, 20, 21, 22, 23, 24, 25, 26, 27, 28, 29, 30, 31
        lw      x\i, 4*\i(sp)
        .endr
        csrrw   sp, mscratch, sp
        mret

end:    la      a1, state
        call    open
        la      s0, written
        sw      a0, 0(s0)
        la      t0, saved
        sw      t0, 4(s0)
        li      t0, 136
        sw      t0, 8(s0)
        li      a0, 5
        mv      a1, s0
        call    semihost
        li      t0, RAM
        sw      t0, 4(s0)
        li      t0, BYTES
        sw      t0, 8(s0)
        li      a0, 5
        mv      a1, s0
        call    semihost
        li      a0, 0x18
        li      a1, 0x20026
        call    semihost
1:      j       1b

open:   li      a0, 1
        j       semihost
        .balign 16
semihost:
        slli    zero, zero, 0x1f
        ebreak
        srai    zero, zero, 7
        ret

        .data
        .balign 4
console:
        .word   console_name, 5, 7
state:  .word   state_name, 5, 5
written:
        .word   0, 0, 0
saved:  .zero   136
console_name:
        .asciz  "console"
state_name:
        .asciz  "state"
