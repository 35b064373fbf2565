# It suspends its board to disk, to go on at 0x80001000 with the opaque value of all ones. The call is its eighth instruction.
        auipc   a1, 1                   # 0x80001000
        lui     a0, 0x80000             # the type, of which the low 32 bits count
        addi    a0, a0, 1
        addi    a2, zero, -1
        addi    a6, zero, 0             # system_suspend
        lui     a7, 0x53555             # SUSP
        addi    a7, a7, 0x350
        ecall
