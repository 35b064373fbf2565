# Every instruction of RV64I that a user's program can make, on edge values. For each instruction one result is kept in
# the list `results`: the rotated sum of what it gave for each pair of values or immediates. tools/dev/hart-programs
# assembles it, and writes the image to edges.bin, and the results of qemu-riscv64 into edge-values-as-under-qemu.run.
#
# Under qemu the first ECALL writes the results, and the second ends the program.

    .option norvc
    .option norelax
    .section program, "awx", @progbits
    .globl _start

# t2 goes into the result in a0
    .macro sum
    slli t3, a0, 7
    srli a0, a0, 57
    or   a0, a0, t3
    add  a0, a0, t2
    .endm

# the result in a0 goes to the list
    .macro keep
    sd   a0, 0(s0)
    addi s0, s0, 8
    li   a0, 0
    .endm

# \op of two registers, for each pair of values
    .macro pairs op
    la   s1, values
1:  ld   t0, 0(s1)
    la   s3, values
2:  ld   t1, 0(s3)
    \op  t2, t0, t1
    sum
    addi s3, s3, 8
    bne  s3, s2, 2b
    addi s1, s1, 8
    bne  s1, s2, 1b
    keep
    .endm

# whether the branch is taken, for each pair of values
    .macro branches op
    la   s1, values
1:  ld   t0, 0(s1)
    la   s3, values
2:  ld   t1, 0(s3)
    li   t2, 1
    \op  t0, t1, 3f
    li   t2, 0
3:  sum
    addi s3, s3, 8
    bne  s3, s2, 2b
    addi s1, s1, 8
    bne  s1, s2, 1b
    keep
    .endm

# \op of a register and each immediate, for each value
    .macro immediates op, list:vararg
    la   s1, values
1:  ld   t0, 0(s1)
    .irp imm, \list
    \op  t2, t0, \imm
    sum
    .endr
    addi s1, s1, 8
    bne  s1, s2, 1b
    keep
    .endm

# loads from each place below and above the pointer in s4
    .macro loads op, list:vararg
    .irp at, \list
    \op  t2, \at(s4)
    sum
    .endr
    keep
    .endm

# stores of each value at each place of eight bytes filled before
    .macro stores op, list:vararg
    la   s1, values
1:  ld   t0, 0(s1)
    .irp at, \list
    sd   s5, 0(s6)
    \op  t0, \at(s6)
    ld   t2, 0(s6)
    sum
    .endr
    addi s1, s1, 8
    bne  s1, s2, 1b
    keep
    .endm

_start:
    la   s0, results
    la   s2, values_end
    la   s4, bytes + 16
    ld   s5, bytes
    la   s6, scratch
    li   a0, 0

    .irp op, add, sub, sll, slt, sltu, xor, srl, sra, or, and
    pairs \op
    .endr
    .irp op, addw, subw, sllw, srlw, sraw
    pairs \op
    .endr
    .irp op, beq, bne, blt, bge, bltu, bgeu
    branches \op
    .endr
    .irp op, addi, slti, sltiu, xori, ori, andi, addiw
    immediates \op, 0, 1, -1, 2047, -2048
    .endr
    .irp op, slli, srli, srai
    immediates \op, 0, 1, 31, 32, 33, 63
    .endr
    .irp op, slliw, srliw, sraiw
    immediates \op, 0, 1, 15, 31
    .endr
    .irp op, lb, lbu
    loads \op, -16, -15, -14, -13, -1, 0, 1, 2, 3, 15
    .endr
    .irp op, lh, lhu
    loads \op, -16, -14, -2, 0, 2, 14
    .endr
    .irp op, lw, lwu
    loads \op, -16, -12, -4, 0, 4, 12
    .endr
    loads ld, -16, -8, 0, 8
    stores sb, 0, 1, 2, 3, 4, 5, 6, 7
    stores sh, 0, 2, 4, 6
    stores sw, 0, 4
    stores sd, 0

    # LUI and AUIPC
    .irp upper, 0, 1, 0x7ffff, 0x80000, 0xfffff
    lui  t2, \upper
    sum
    .endr
    keep
    .irp upper, 0, 1, 0x7ffff, 0x80000, 0xfffff
    auipc t2, \upper
    sum
    .endr
    keep

    # JAL forward and backward
    jal  t2, 2f
1:  sum
    j    3f
2:  sum
    jal  t2, 1b
3:  keep

    # JALR: the lowest bit of the target is cleared, and rs1 is read before rd is written
    la   t1, 1f + 1
    jalr t2, 0(t1)
    sum
1:  sum
    la   t1, 2f - 2047
    jalr t1, 2047(t1)
    sum
2:  addi t2, t1, 0
    sum
    la   t1, 3f + 2048
    jalr zero, -2048(t1)
    sum
3:  keep

    # x0 reads 0, whatever was written to it
    addi zero, s5, 1
    add  t2, zero, zero
    sum
    ld   zero, 0(s4)
    lui  zero, 1
    sub  t2, zero, s5
    sum
    jal  zero, 1f
1:  addiw zero, s5, 1
    or   t2, zero, zero
    sum
    keep

    # FENCE with any fields
    addi t2, s5, 3
    fence
    fence rw, w
    fence.tso
    sum
    keep

    li   a0, 1
    la   a1, results
    la   a2, results_end
    sub  a2, a2, a1
    li   a7, 64
    ecall
    li   a0, 0
    li   a7, 93
    ecall

    .balign 8
values:
    .dword 0, 1, 2, 31, 32, 33, 63, 64
    .dword 0x7fffffff, 0x80000000, 0xffffffff, 0x100000000
    .dword 0x7fffffffffffffff, 0x8000000000000000, 0xffffffffffffffff
    .dword 0x123456789abcdef0, 0xfedcba9876543210
values_end:
bytes:
    .byte 0x00, 0x01, 0x7f, 0x80, 0xff, 0xfe, 0x12, 0xed
    .byte 0x34, 0x56, 0x78, 0x9a, 0xbc, 0xde, 0xf0, 0x81
    .byte 0x80, 0xff, 0x7f, 0x01, 0x00, 0x00, 0x00, 0x80
    .byte 0xff, 0xff, 0xff, 0x7f, 0xaa, 0x55, 0xc3, 0x3c
scratch:
    .dword 0
results:
    .zero 8 * 51
results_end:
