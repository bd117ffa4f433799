# A module that is killed by its first fault, and whose words nobody owns.
.text 0x80020000
start:
    la t0, word
    sw t0, 0(t0)
    ebreak
.data 0x80021000
word: .word start
