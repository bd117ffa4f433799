# Sums the first word of its input, and tells nobody. At `tells` it grants the input to domain 2, to read it.
.text 0x80000000
start:
    lui t0, 0x80001
again:
    lw t1, 4(t0)
    add t2, t2, t1
    jal zero, again
tells:
    lui a0, 0x80001
    lw t1, 4(a0)
    addi a1, zero, 32
    addi a2, zero, 2
    addi a3, zero, 1
    addi a7, zero, 3        # grant
    ecall
    jal zero, 0
