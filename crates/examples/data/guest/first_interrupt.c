/* Hart 0 starts hart 1 and interrupts it as soon as its state reads STARTED, a million times. Hart 1 has to find each interrupt pending,
   and stops. The board is then shut down; where an interrupt was lost, for a failure of the system. sbiboard runs it (docs/CONSOLE.md). */
#include "guest.h"

#ifndef ROUNDS
#define ROUNDS 1000000
#endif

/* The last round whose interrupt was sent. */
static volatile u64 sent;

static void await_state_of_second(u64 state)
{
    while (sbi_hart_get_status(1).value != state)
        ;
}

void hart_main(u64 hart, u64 round)
{
    while (sent != round)
        ;
    if (!interrupt_is_pending())
        sbi_system_reset(SBI_SHUTDOWN, SBI_SYSTEM_FAILURE);
    take_interrupt();
    sbi_hart_stop();
}

void kernel(u64 hart, u64 reason)
{
    for (u64 round = 1; round <= ROUNDS; round++) {
        sbi_hart_start(1, hart_start, round);
        await_state_of_second(SBI_STARTED);
        sbi_send_ipi(1, 1);
        sent = round;
        await_state_of_second(SBI_STOPPED);
    }
    sbi_system_reset(SBI_SHUTDOWN, SBI_NO_REASON);
}
