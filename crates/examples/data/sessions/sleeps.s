# It suspends its board to disk, to go on at 0x80000000 with the opaque value 0. The call is its tenth instruction.
        addi    a0, zero, 1             # 0x80000001
        slli    a0, a0, 31
        addi    a0, a0, 1
        addi    a1, zero, 1             # 0x80000000
        slli    a1, a1, 31
        addi    a2, zero, 0
        addi    a6, zero, 0             # system_suspend
        lui     a7, 0x53555             # SUSP
        addi    a7, a7, 0x350
        ecall
