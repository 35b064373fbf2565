# It shuts its board down for a failure of the system. The call is its sixth instruction.
        addi    a0, zero, 0             # shutdown
        addi    a1, zero, 1             # system failure
        addi    a6, zero, 0             # system_reset
        lui     a7, 0x53525             # SRST
        addi    a7, a7, 0x354
        ecall
