# Lets the reader read its text, has it shown, and then asks the reader to spoil it.
.text 0x80000000
start:
    la a0, text
    addi a1, zero, 19
    addi a2, zero, 2        # the reader's domain
    addi a3, zero, 1        # read
    addi a7, zero, 3
    ecall                   # grant
    la a0, text
    lui t0, 0x80010
    jalr ra, 0(t0)          # through the gate `show`
    la a0, text
    jalr ra, 256(t0)        # through the gate `spoil`, which comes back by a fault
    andi a0, a0, 255        # its cause
    addi a7, zero, 1
    ecall                   # exit
.data 0x80001000
text: .ascii "one word at a time\n"
