# Has two gates: one writes a text of another module to the console, the other tries to change it.
.text 0x80010000
show:
    addi a7, zero, 2
    ecall                   # write
show_back:
    jalr zero, 0(ra)
.at 0x80010100
spoil:
    sw zero, 0(a0)          # the reader may read this word and not write it
spoil_back:
    jalr zero, 0(ra)
