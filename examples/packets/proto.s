# Sums a packet's four words and has the console module write a line.
.text 0x80010000
receive:
    addi sp, sp, -16
    sw ra, 0(sp)
    lw t0, 0(a0)
    lw t1, 4(a0)
    add t0, t0, t1
    lw t1, 8(a0)
    add t0, t0, t1
    lw t1, 12(a0)
    add t0, t0, t1
    la t1, sum
    sw t0, 0(t1)
    lui t0, 0x80020
    jalr ra, 0(t0)          # print
    lw ra, 0(sp)
    addi sp, sp, 16
receive_back:
    jalr zero, 0(ra)
idle:
    jal zero, idle
.data 0x80011000
sum: .word 0
.at 0x8001225c
