.text 0x80008000
start:
    addi t0, zero, 20
again:
    addi t0, t0, -1
    bne t0, zero, again
    addi a0, zero, 0
    addi a7, zero, 1
    ecall
