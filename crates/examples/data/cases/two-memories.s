# A guest of a board of 8 pages. It fills the memory from the second page on, each double word with its own address; and then
# once more, each with the complement of that. `look` counts in x12 the double words of the first memory, and in x13 those of
# the second: 3,584 where one of them stands whole. The first memory takes 10,755 turns, both 25,093, and `look`, at
# 0x80000034, less than 30,000.
    auipc x5, 1
    auipc x6, 8
    addi  x6, x6, -4
first:
    sd    x5, 0(x5)
    addi  x5, x5, 8
    bne   x5, x6, first
    auipc x5, 1
    addi  x5, x5, -24
second:
    xori  x7, x5, -1
    sd    x7, 0(x5)
    addi  x5, x5, 8
    bne   x5, x6, second
    jal   x0, 0
look:
    auipc x5, 1
    addi  x5, x5, -0x34
    auipc x6, 8
    addi  x6, x6, -0x3c
    addi  x12, x0, 0
    addi  x13, x0, 0
each:
    ld    x7, 0(x5)
    bne   x7, x5, other
    addi  x12, x12, 1
other:
    xori  x7, x7, -1
    bne   x7, x5, next
    addi  x13, x13, 1
next:
    addi  x5, x5, 8
    bne   x5, x6, each
    jal   x0, 0
