# As waits.s, but that hart 0 interrupts itself first: that ends its suspend.
        .option norelax
        li      a0, 1                   # send_ipi to hart 0
        li      a1, 0
        li      a6, 0
        li      a7, 0x735049            # IPI
        ecall
        li      a0, 0                   # hart_suspend, retentive
        li      a1, 0
        li      a2, 0
        li      a6, 3
        li      a7, 0x48534d            # HSM
        ecall
        la      t0, woke
        li      t1, 1
        sd      t1, 0(t0)
        j       .
        .balign 8
woke:   .dword  0
