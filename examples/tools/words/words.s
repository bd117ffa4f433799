# Changes words in each way that there is; the number of a step stands beside it.
.text 0x80000000
start:
    lui s0, 0x80001
    addi t0, zero, 1
    sw t0, 0(s0)            # 3: 1
    addi t1, zero, 2
    sw t1, 0(s0)            # 5: 2
    sw t0, 0(s0)            # 6: 1 again, and that stays
    sw t0, 0(s0)            # 7: no change
    addi t2, zero, 7
    sb t2, 7(s0)            # 9: the last byte of the next word
    addi a0, s0, 8
    addi a1, zero, 9
    addi a7, zero, 13
    ecall                   # 13: exchange
    addi a0, zero, 1
    addi a7, zero, 6
    ecall                   # 16: alloc
    sw t1, 0(a0)            # 17
    addi a7, zero, 7
    ecall                   # 19: free
    addi a0, zero, 1
    addi a7, zero, 6
    ecall                   # 22: alloc, which clears the word again
    addi a0, zero, 0
    addi a7, zero, 1
    ecall                   # 25: exit
.data 0x80001000
    .word 0, 0, 0, 0
