# Hart 0 starts hart 1 and stops itself. Hart 1 waits until hart 0 is STOPPED, and suspends the board to disk with the opaque value 7, to be
# resumed at 0x80000070. There it writes a0 to `scause` and a1 to `stval`, and jumps to itself at 0x80000078.
        .option norelax
        li      a7, 0x48534d            # HSM
        li      a6, 0                   # hart_start of hart 1
        li      a0, 1
        la      a1, other
        li      a2, 0
        ecall
        li      a6, 1                   # hart_stop
        ecall
        j       .
other:  li      a7, 0x48534d            # HSM
        li      a6, 2                   # hart_get_status of hart 0
polls:  li      a0, 0
        ecall
        li      t0, 1                   # STOPPED
        bne     a1, t0, polls
        lui     a7, 0x53555             # SUSP
        addiw   a7, a7, 0x350
        li      a6, 0                   # system_suspend
        lui     a0, 0x80000             # 0x80000001
        addiw   a0, a0, 1
        la      a1, resumed
        li      a2, 7
        ecall
        j       .
resumed:
        csrw    scause, a0
        csrw    stval, a1
        j       .
