# A shutdown for no reason, 0.
        li      a0, 0                   # system_reset: shutdown
        li      a1, 0                   # no reason
        li      a6, 0
        li      a7, 0x53525354          # SRST
        ecall
        j       .
