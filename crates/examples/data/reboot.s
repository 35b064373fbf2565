# Asks for a cold reboot because of a failure of the system where the hart's boot found no reason in a1, and else keeps the reason
# in s1 and stops the hart. Source: SBI specification 2.0, chapters 9 and 10.
        .globl  _start
_start:
        bnez    a1, again
        li      a7, 0x53525354
        li      a6, 0
        li      a0, 1
        li      a1, 1
        ecall
again:
        mv      s1, a1
        li      a7, 0x48534d
        li      a6, 1
        ecall
