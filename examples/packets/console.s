# Writes a line.
.text 0x80020000
print:
    la a0, line
    addi a1, zero, 12
    addi a7, zero, 2
    ecall                   # write
print_back:
    jalr zero, 0(ra)
idle:
    jal zero, idle
.data 0x80021000
line: .ascii "packet done\n"
.at 0x8002228c
