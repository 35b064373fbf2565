# As counts.s, but that it rests once the count is 3.
        .option norelax
begin:  la      t0, count
        ld      t1, 0(t0)
        li      t2, 3
        bgeu    t1, t2, rest
        addi    t1, t1, 1
        sd      t1, 0(t0)
        li      a0, 0x80000001          # system_suspend to the disk
        la      a1, begin
        li      a6, 0
        li      a7, 0x53555350          # SUSP
        ecall
rest:   j       .
        .balign 8
count:  .dword  0
