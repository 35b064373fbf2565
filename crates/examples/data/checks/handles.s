# EBREAK with a handler, which stores 1 at `caught`.
        .option norelax
        la      t0, handler
        csrw    stvec, t0
        ebreak
        .balign 4
handler:
        la      t0, caught
        li      t1, 1
        sd      t1, 0(t0)
        j       .
        .balign 8
caught: .dword  0
