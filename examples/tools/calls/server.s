.text 0x80010000
good: addi a0, zero, 5
back: jalr zero, 0(ra)
bad: ebreak
