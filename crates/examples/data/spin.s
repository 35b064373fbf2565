# Harts that spin, for docs/THREADS.md, "Speed": hart 0 starts harts 1 to 3, those of a board that has fewer are refused, and each then
# adds and jumps for ever. spin.bin comes of these commands (clang 14):
#
#   clang --target=riscv64 -march=rv64i -mabi=lp64 -c spin.s -o spin.o
#   ld.lld -Ttext=0x80000000 -e start spin.o -o spin.elf
#   llvm-objcopy -O binary -j .text.start -j .text spin.elf spin.bin
    .section .text.start, "ax"
    .globl start
start:
    li s0, 1
    li s1, 4
1:  bge s0, s1, 2f
    mv a0, s0
    la a1, spin
    li a2, 0
    li a6, 0
    li a7, 0x48534D
    ecall
    addi s0, s0, 1
    j 1b
2:  j spin
spin:
    addi t0, t0, 1
    xor t1, t1, t0
    slli t2, t1, 3
    add t3, t3, t2
    j spin
