# Hart 0 suspends itself, and no hart is there that could interrupt it. So it never stores 1 at `woke`.
        .option norelax
        li      a0, 0                   # hart_suspend, retentive
        li      a1, 0
        li      a2, 0
        li      a6, 3
        li      a7, 0x48534d            # HSM
        ecall
        la      t0, woke
        li      t1, 1
        sd      t1, 0(t0)
        j       .
        .balign 8
woke:   .dword  0
