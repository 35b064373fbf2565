# A shutdown for a failure of the system, reason 1.
        li      a0, 0                   # system_reset: shutdown
        li      a1, 1                   # system failure
        li      a6, 0
        li      a7, 0x53525354          # SRST
        ecall
        j       .
