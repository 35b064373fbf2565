# Hart 0 starts hart 1, and polls `answer` until it is not 0. Hart 1 stops without an answer.
        .option norelax
        li      a0, 1                   # hart_start of hart 1
        la      a1, other
        li      a6, 0
        li      a7, 0x48534d            # HSM
        ecall
        la      t0, answer
poll:   ld      t1, 0(t0)
        beqz    t1, poll
        j       .
other:  li      a6, 1                   # hart_stop
        li      a7, 0x48534d
        ecall
        .balign 8
answer: .dword  0
