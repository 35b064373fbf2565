/* Each hart adds 1 to a sum once, under the lock of lock.h, and hart 0 shows the sum once all have: the number of harts in each order.
   CFLAGS=-DLOCK_DRAWS=0 makes it lose one. */
#include "guest.h"
#include "lock.h"

static struct lock lock;
static volatile u64 sum, is_done[HARTS];

static void add(u64 hart)
{
    lock_take(&lock, hart);
    sum = sum + 1;
    lock_leave(&lock, hart);
}

void hart_main(u64 hart, u64 opaque)
{
    add(hart);
    is_done[hart] = 1;
    sbi_hart_stop();
}

void kernel(u64 hart, u64 reason)
{
    for (u64 other = 1; other < HARTS; other++)
        sbi_hart_start(other, hart_start, 0);
    add(hart);
    for (u64 other = 1; other < HARTS; other++)
        while (!is_done[other])
            ;
    shown[0] = sum;
    sbi_hart_stop();
}
