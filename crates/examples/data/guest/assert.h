/* What must hold in a kernel. Where it does not, the board shuts down with reason 1, "system failure": the next boot finds it in a1, and
   a script's next `found` line and the console's `state` say `reason 1`. failed_line keeps the line, for GDB (docs/KERNEL.md). */
#ifndef ASSERT_H
#define ASSERT_H

#include "sbi.h"

#define assert(holds) ((holds) ? (void)0 : assert_failed(__LINE__))

/* The same by a trap: EBREAK, after which a hart that has no handler does nothing any more. sbicheck tells it as `traps`, with its line. */
#define must(holds) ((holds) ? (void)0 : must_trap())

static inline void must_trap(void)
{
    asm volatile("ebreak");
}

static volatile u64 failed_line __attribute__((unused));

static _Noreturn void __attribute__((noinline, unused)) assert_failed(u64 line)
{
    failed_line = line;
    for (;;) /* a shutdown that the disk refuses is asked for again */
        sbi_system_reset(SBI_SHUTDOWN, SBI_SYSTEM_FAILURE);
}

#endif
