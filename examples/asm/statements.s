# Each statement of the table of instructions, at the ends of its numbers' ranges.
.text 0x80000000
    lui x5, 1048575
    lui a0, 0
    auipc ra, 0x80000
    jal x1, 2048
    jal zero, -1048576
    jal ra, 1048574
    jalr x1, -2048(x2)
    jalr x0, 2047(ra)
    beq s0, t6, 8
    bne s0, t6, -8
    blt s0, t6, 4094
    bge s0, t6, -4096
    bltu s0, t6, 2
    bgeu s0, t6, -2
    lb a1, -1(sp)
    lh a1, 2(sp)
    lw a1, -2048(sp)
    lbu a1, 2047(sp)
    lhu a1, 0(sp)
    sb s11, -1(gp)
    sh s11, 2(gp)
    sw s11, -2048(gp)
    addi t0, tp, -2048
    slti t0, tp, 2047
    sltiu t0, tp, -1
    xori t0, tp, 255
    ori t0, tp, -256
    andi t0, tp, 1
    slli x31, x30, 31
    srli x31, x30, 1
    srai x31, x30, 30
    add a2, s3, t4
    sub a2, s3, t4
    sll a2, s3, t4
    slt a2, s3, t4
    sltu a2, s3, t4
    xor a2, s3, t4
    srl a2, s3, t4
    sra a2, s3, t4
    or a2, s3, t4
    and a2, s3, t4
    mul a2, s3, t4
    mulh a2, s3, t4
    mulhsu a2, s3, t4
    mulhu a2, s3, t4
    div a2, s3, t4
    divu a2, s3, t4
    rem a2, s3, t4
    remu a2, s3, t4
    fence
    fence 261120
    fence 0
    ecall
    ebreak
