# Writes the Fibonacci numbers F(0) to F(7) into memory, then asks the firmware for the version of the SBI, and stays.
        .globl  _start
_start:
        la      s0, numbers
        li      t0, 0
        li      t1, 1
        li      t2, 8
next:
        sd      t0, 0(s0)
        add     t3, t0, t1
        mv      t0, t1
        mv      t1, t3
        addi    s0, s0, 8
        addi    t2, t2, -1
        bnez    t2, next

        li      a7, 0x10
        li      a6, 0
        ecall
stay:
        j       stay

        .balign 8
numbers:
        .skip   64
