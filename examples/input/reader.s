# Shows its input on the console, and leaves with the number of its bytes.
.text 0x80000000
start:
    lui t0, 0x80001         # the input area: how many bytes there are, and then those
    lw a1, 0(t0)
    addi a0, t0, 4
    addi a7, zero, 2        # write
    ecall
    lw a0, 0(t0)
    addi a7, zero, 1        # exit
    ecall
