# Leaves with the code 7, by the supervisor's call 1.
.text 0x80000000
start:
    li a7, 1
    la a0, code
    lw a0, 0(a0)
    ecall
.data 0x80001000
code: .word 7
