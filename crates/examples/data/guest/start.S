/* Where harts begin, trap and wake, for kernels in C (docs/KERNEL.md, "In C"). Each part is a section of its own: the linker drops
   those that a kernel does not use. */
#include "sbi.h"

/* A hart's stack ends STACK bytes below that of the hart before it (guest.ld). */
    .macro own_stack
    la sp, stacks_end
    lui t0, %hi(STACK)
    addi t0, t0, %lo(STACK)
    mv t1, a0
1:  beqz t1, 2f
    sub sp, sp, t0
    addi t1, t1, -1
    j 1b
2:
    .endm

/* The payload's first byte: hart 0 at a boot, with the reset reason in a1. void kernel(u64 hart, u64 reason) */
    .section .text.start, "ax"
    .globl start
start:
    la sp, stacks_end
    j kernel

/* What a kernel shows, in a place that every script and every reader of a memory knows: eight words at 0x80000040. */
    .balign 64
    .globl shown
shown:
    .skip 64

/* Where another hart starts: sbi_hart_start(hart, hart_start, opaque). void hart_main(u64 hart, u64 opaque) */
    .section .text.hart_start, "ax"
    .globl hart_start
    .balign 4
hart_start:
    own_stack
    j hart_main

/* Where a board wakes that shall begin anew: sbi_system_suspend(type, board_wake, opaque). void woken(u64 hart, u64 opaque) */
    .section .text.board_wake, "ax"
    .globl board_wake
    .balign 4
board_wake:
    own_stack
    j woken

/* long board_suspend(u64 type, u64 opaque): a suspend of the board that returns where it was called, SBI_SUCCESS once the board woke,
   or the error. A woken hart has nothing but its number and the opaque value: what the caller may count on (its stack, ra, s0 to s11)
   is kept in memory. Interrupts are off then, and stvec, sie and sscratch are the caller's to set anew. */
    .section .text.board_suspend, "ax"
    .globl board_suspend
    .balign 4
board_suspend:
    la t0, sleeper
    sd ra, 0(t0)
    sd sp, 8(t0)
    sd s0, 16(t0)
    sd s1, 24(t0)
    sd s2, 32(t0)
    sd s3, 40(t0)
    sd s4, 48(t0)
    sd s5, 56(t0)
    sd s6, 64(t0)
    sd s7, 72(t0)
    sd s8, 80(t0)
    sd s9, 88(t0)
    sd s10, 96(t0)
    sd s11, 104(t0)
    mv a2, a1
    la a1, 3f
    li a6, SBI_SUSP_SUSPEND
    li a7, SBI_SUSP
    ecall
    ret
    .balign 4
3:  la t0, sleeper
    ld ra, 0(t0)
    ld sp, 8(t0)
    ld s0, 16(t0)
    ld s1, 24(t0)
    ld s2, 32(t0)
    ld s3, 40(t0)
    ld s4, 48(t0)
    ld s5, 56(t0)
    ld s6, 64(t0)
    ld s7, 72(t0)
    ld s8, 80(t0)
    ld s9, 88(t0)
    ld s10, 96(t0)
    ld s11, 104(t0)
    li a0, SBI_SUCCESS
    ret

    .section .bss.sleeper, "aw", @nobits
    .balign 8
sleeper:
    .skip 112

/* Where traps end a kernel that expects none, interrupts too: stvec is trap_stop, and sscratch the hart's words of first_traps
   (stop_at_traps of guest.h). It uses no stack, which may be what is broken; it keeps the hart's first trap, and shuts the board down
   with reason 1. A shutdown that the disk refuses is asked for again. Of what ran, t0, t1, a0, a1, a6 and a7 are lost. */
    .section .text.trap_stop, "ax"
    .globl trap_stop
    .balign 4
trap_stop:
    csrr t0, sscratch
    ld t1, 0(t0)
    bnez t1, 1f
    csrr t1, scause
    sd t1, 8(t0)
    csrr t1, sepc
    sd t1, 16(t0)
    csrr t1, stval
    sd t1, 24(t0)
    li t1, 1
    sd t1, 0(t0)
1:  li a0, SBI_SHUTDOWN
    li a1, SBI_SYSTEM_FAILURE
    li a6, SBI_SRST_RESET
    li a7, SBI_SRST
    ecall
    j 1b

    .section .bss.first_traps, "aw", @nobits
    .balign 64
    .globl first_traps
first_traps:
    .skip 32 * 8

/* Each trap: stvec is trap_entry, and sscratch the frame of what runs. It keeps all registers in the frame, calls
   struct frame *trap(struct frame *) on the stack that the frame names, and goes on with the frame that it answers.
   go_on(struct frame *) goes on with a frame from anywhere. (struct frame: guest.h) */
    .section .text.trap_entry, "ax"
    .globl trap_entry
    .balign 4
trap_entry:
    csrrw t0, sscratch, t0
    sd ra, 8(t0)
    sd sp, 16(t0)
    sd gp, 24(t0)
    sd tp, 32(t0)
    sd t1, 48(t0)
    sd t2, 56(t0)
    sd s0, 64(t0)
    sd s1, 72(t0)
    sd a0, 80(t0)
    sd a1, 88(t0)
    sd a2, 96(t0)
    sd a3, 104(t0)
    sd a4, 112(t0)
    sd a5, 120(t0)
    sd a6, 128(t0)
    sd a7, 136(t0)
    sd s2, 144(t0)
    sd s3, 152(t0)
    sd s4, 160(t0)
    sd s5, 168(t0)
    sd s6, 176(t0)
    sd s7, 184(t0)
    sd s8, 192(t0)
    sd s9, 200(t0)
    sd s10, 208(t0)
    sd s11, 216(t0)
    sd t3, 224(t0)
    sd t4, 232(t0)
    sd t5, 240(t0)
    sd t6, 248(t0)
    csrr t1, sepc
    sd t1, 0(t0)
    csrrw t1, sscratch, t0
    sd t1, 40(t0)
    ld sp, 256(t0)
    mv a0, t0
    call trap

    .globl go_on
go_on:
    csrw sscratch, a0
    li t0, SSTATUS_SPIE
    csrs sstatus, t0
    ld t0, 0(a0)
    csrw sepc, t0
    ld ra, 8(a0)
    ld sp, 16(a0)
    ld gp, 24(a0)
    ld tp, 32(a0)
    ld t0, 40(a0)
    ld t1, 48(a0)
    ld t2, 56(a0)
    ld s0, 64(a0)
    ld s1, 72(a0)
    ld a1, 88(a0)
    ld a2, 96(a0)
    ld a3, 104(a0)
    ld a4, 112(a0)
    ld a5, 120(a0)
    ld a6, 128(a0)
    ld a7, 136(a0)
    ld s2, 144(a0)
    ld s3, 152(a0)
    ld s4, 160(a0)
    ld s5, 168(a0)
    ld s6, 176(a0)
    ld s7, 184(a0)
    ld s8, 192(a0)
    ld s9, 200(a0)
    ld s10, 208(a0)
    ld s11, 216(a0)
    ld t3, 224(a0)
    ld t4, 232(a0)
    ld t5, 240(a0)
    ld t6, 248(a0)
    ld a0, 80(a0)
    sret
