# Each hart prints a line of its own, and leaves.
.text 0x80000000
start:
    addi a7, zero, 12
    ecall
    srli a0, a0, 8          # the hart
    slli a0, a0, 3
    lui t0, 0x80001
    add a0, a0, t0
    addi a1, zero, 7
    addi a7, zero, 2
    ecall
    addi a0, zero, 0
    addi a7, zero, 1
    ecall
.data 0x80001000
    .ascii "hart 0\n\0hart 1\n\0"
