/* Two harts count by turns: each adds 1 to a count of its own, interrupts the other, and suspends itself until it is interrupted. After a
   hundred rounds hart 1 stops, and hart 0 suspends the board to disk; a board that goes on with the image counts on. It shows the counts
   of hart 0 and hart 1, and how often the board was suspended. sbiboard runs it (docs/CONSOLE.md). */
#include "guest.h"

#ifndef ROUNDS
#define ROUNDS 100
#endif

enum { SHOWN_FIRST_COUNT, SHOWN_SECOND_COUNT, SHOWN_SUSPENSIONS };

/* Waits until an interrupt is pending for this hart, and takes it. What came before the suspend ends it at once. */
static void wait_for_other(void)
{
    while (!interrupt_is_pending())
        sbi_hart_suspend(SBI_SUSPEND_RETENTIVE, 0, 0);
    take_interrupt();
}

static void count(u64 hart)
{
    shown[hart] = shown[hart] + 1;
}

/* Until hart 1 has begun, which takes what is pending for it. */
static void start_second(void)
{
    sbi_hart_start(1, hart_start, 0);
    while (sbi_hart_get_status(1).value == SBI_START_PENDING)
        ;
}

static void await_stop_of_second(void)
{
    while (sbi_hart_get_status(1).value != SBI_STOPPED)
        ;
}

void kernel(u64 hart, u64 reason)
{
    for (;;) {
        start_second();
        for (int round = 0; round < ROUNDS; round++) {
            count(0);
            sbi_send_ipi(1, 1);
            wait_for_other();
        }
        await_stop_of_second();
        shown[SHOWN_SUSPENSIONS] = shown[SHOWN_SUSPENSIONS] + 1;
        board_suspend(SBI_TO_DISK, 0);
    }
}

void hart_main(u64 hart, u64 opaque)
{
    for (int round = 0; round < ROUNDS; round++) {
        wait_for_other();
        count(1);
        sbi_send_ipi(1, 0);
    }
    sbi_hart_stop();
}
