# A grant whose number comes from memory and which waits for the other hart; then three calls through gates: one
# returns, one faults and kills the server, and one finds it dead.
.text 0x80000000
start:
    lui s0, 0x80001
    lw a7, 0(s0)
    addi a0, s0, 0
    addi a1, zero, 4
    addi a2, zero, 2
    addi a3, zero, 1
    ecall
    lui t0, 0x80010
    jalr ra, 0(t0)
    jalr ra, 8(t0)
    jalr ra, 0(t0)
    addi a0, zero, 0
    addi a7, zero, 1
    ecall
.data 0x80001000
    .word 3
