# As unanswered.s, but that hart 1 stores 1 at `answer` before it stops.
        .option norelax
        li      a0, 1                   # hart_start of hart 1
        la      a1, other
        li      a6, 0
        li      a7, 0x48534d            # HSM
        ecall
        la      t0, answer
poll:   ld      t1, 0(t0)
        beqz    t1, poll
        j       .
other:  la      t0, answer
        li      t1, 1
        sd      t1, 0(t0)
        li      a6, 1                   # hart_stop
        li      a7, 0x48534d
        ecall
        .balign 8
answer: .dword  0
