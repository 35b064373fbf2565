/* A kernel that expects no trap and takes one: it stores just below RAM, where no memory is. The hart's first trap is kept, and the
   board shuts down with reason 1. */
#include "guest.h"

void kernel(u64 hart, u64 reason)
{
    stop_at_traps(hart);
    *(volatile u64 *)(RAM_BASE - 8) = 1;
    sbi_system_reset(SBI_SHUTDOWN, SBI_NO_REASON);
}
