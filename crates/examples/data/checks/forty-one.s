# It stores 41 at `sum`.
        .option norelax
        la      t0, sum
        li      t1, 41
        sd      t1, 0(t0)
        j       .
        .balign 8
sum:    .dword  0
