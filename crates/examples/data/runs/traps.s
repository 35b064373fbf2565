# A supervisor's program on a memory of two pages: what traps, and what the control and status registers read after a
# write. qemu-user has no supervisor mode, so the results in traps-and-registers-of-the-supervisor.run come from the ISA manual and
# docs/HART.md: the comment of each case says them. The program ends at its ECALL. tools/dev/hart-programs writes its image, traps.bin.
#
# The handler keeps four numbers of each trap: scause, stval - s7, sepc - s6 and sstatus. Then it returns to s5, or
# past the instruction where s5 is 0.

    .option norvc
    .option norelax
    .section program, "awx", @progbits
    .globl _start

    .equ base, 0x80000000
    .equ end, 0x80002000

# \op traps, whatever else it says
    .macro case op:vararg
    la   s6, 1f
1:  \op
    .endm

# likewise, and stval is a place beside the pc
    .macro jumps op:vararg
    la   s6, 1f
    mv   s7, s6
1:  \op
    li   s7, 0
    .endm

    .macro keep register
    sd   \register, 0(s0)
    addi s0, s0, 8
    .endm

# what the control and status register reads after t0 was written to it
    .macro writes csr
    csrw \csr, t0
    csrr t2, \csr
    keep t2
    .endm

_start:
    la   s0, results
    li   s1, base
    slli s1, s1, 32
    srli s1, s1, 32
    li   s2, end
    slli s2, s2, 32
    srli s2, s2, 32
    li   s5, 0
    li   s7, 0
    la   t0, handler
    csrw stvec, t0
    csrsi sstatus, 2

    case lh   t2, 1(s1)             # 4, base + 1
    case lhu  t2, 1(s1)             # 4, base + 1
    case lw   t2, 2(s1)             # 4, base + 2
    case lwu  t2, 3(s1)             # 4, base + 3
    case ld   t2, 4(s1)             # 4, base + 4
    case lb   t2, -1(s1)            # 5, base - 1
    case lbu  t2, 0(s2)             # 5, end
    case lh   t2, 0(s2)             # 5, end
    case lw   t2, 2(s2)             # 4, end + 2: alignment is checked first
    case ld   t2, 0(zero)           # 5, 0
    case ld   t2, -8(zero)          # 5, 2^64 - 8
    case sh   t2, 1(s1)             # 6, base + 1
    case sw   t2, 2(s1)             # 6, base + 2
    case sd   t2, 4(s1)             # 6, base + 4
    case sb   t2, -1(s1)            # 7, base - 1
    case sb   t2, 0(s2)             # 7, end
    case sw   t2, 2(s2)             # 6, end + 2
    case sd   t2, -8(zero)          # 7, 2^64 - 8
    case .word 0                    # 2, 0
    case .word 0xffffffff           # 2, 0xffffffff
    case csrr t2, scounteren        # 2, 0x106023f3: the profile has no such register
    case ebreak                     # 3, 0
    li   t2, 77
    jumps jal  t2, .+2              # 0, pc + 2
    keep t2                         # 77: rd is not written
    la   t1, 1f
    jumps jalr t2, 6(t1)            # 0, pc + 6
    la   t1, 1f
    jumps jalr t2, -9(t1)           # 0, pc - 10: bit 0 is cleared, bit 1 is not
    keep t2                         # 77
    jumps beq  zero, zero, .+6      # 0, pc + 6
    bne  zero, zero, .+2            # not taken, so nothing traps
    la   s5, 2f
    li   s6, 0
    jr   zero                       # 1, 0, at pc 0
2:  la   s5, 3f
    mv   s6, s2
    jr   s2                         # 1, end, at pc end
3:  csrr t2, sstatus
    keep t2                         # 0x122: SRET set SIE to SPIE, and SPIE

    li   t0, -1
    csrr t3, stvec
    writes sstatus                  # 0x122
    writes sie                      # 2
    writes stvec                    # 2^64 - 4
    csrw stvec, t3
    writes sscratch                 # 2^64 - 1
    writes sepc                     # 2^64 - 4
    writes scause                   # 2^64 - 1
    writes stval                    # 2^64 - 1
    writes sip                      # 0: nothing is pending
    writes satp                     # 0
    li   t0, 0
    writes sstatus                  # 0x100
    writes sie                      # 0
    writes sscratch                 # 0

    csrwi sscratch, 15
    li   t0, 0x30
    csrrs t2, sscratch, t0
    keep t2                         # 0xf
    li   t0, 0x21
    csrrc t2, sscratch, t0
    keep t2                         # 0x3f
    csrrs t2, sscratch, zero
    keep t2                         # 0x1e
    csrrci t2, sscratch, 6
    csrrsi t2, sscratch, 1
    keep t2                         # 0x18
    csrrwi t2, sscratch, 31
    keep t2                         # 0x19
    li   t0, 5
    csrrw t0, sscratch, t0
    keep t0                         # 31: rs1 is read before rd is written
    csrr t2, sscratch
    keep t2                         # 5
    wfi
    fence
    ecall

    .balign 4
handler:
    csrr t4, scause
    keep t4
    csrr t4, stval
    sub  t4, t4, s7
    keep t4
    csrr t4, sepc
    sub  t4, t4, s6
    keep t4
    csrr t4, sstatus
    keep t4
    bnez s5, 1f
    csrr s5, sepc
    addi s5, s5, 4
1:  csrw sepc, s5
    li   s5, 0
    sret

    .balign 8
results:
    .zero 8 * 136
