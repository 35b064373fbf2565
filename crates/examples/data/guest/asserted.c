/* A kernel whose second assertion fails: hart 0 is STARTED, and so is not STOPPED. The board shuts down with reason 1. */
#include "assert.h"
#include "guest.h"

void kernel(u64 hart, u64 reason)
{
    u64 state = sbi_hart_get_status(hart).value;
    assert(state == SBI_STARTED);
    assert(state == SBI_STOPPED);
    sbi_system_reset(SBI_SHUTDOWN, SBI_NO_REASON);
}
