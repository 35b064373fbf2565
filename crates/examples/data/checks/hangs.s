# As forgets.s, but that it comes to no end where the sleep is refused.
        .option norelax
        li      a0, 0x80000001          # system_suspend to the disk
        la      a1, after
        li      a6, 0
        li      a7, 0x53555350          # SUSP
        ecall
hangs:  nop
        j       hangs
after:  la      t0, shown
        li      t1, 1
        sd      t1, 0(t0)
        j       .
        .balign 8
shown:  .dword  0
