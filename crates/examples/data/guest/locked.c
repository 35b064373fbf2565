/* Four harts add to one sum under a lock. Each adds 1 so many rounds, by a load, an addition and a store: without the lock, additions are
   lost. It shows the sum, which is the harts times the rounds in each order of their turns, and how many harts are done.

   CFLAGS=-DUNLOCKED leaves the lock out. */
#include "assert.h"
#include "guest.h"
#include "lock.h"

#ifdef UNLOCKED
#define lock_take(lock, hart) ((void)(lock), (void)(hart))
#define lock_leave(lock, hart) ((void)(lock), (void)(hart))
#endif

enum { ROUNDS = 16 };
enum { SHOWN_SUM, SHOWN_DONE };

static struct lock lock;

static void add(u64 hart, u64 which)
{
    lock_take(&lock, hart);
    shown[which] = shown[which] + 1;
    lock_leave(&lock, hart);
}

static _Noreturn void work(u64 hart)
{
    for (int round = 0; round < ROUNDS; round++)
        add(hart, SHOWN_SUM);
    add(hart, SHOWN_DONE);
    for (;;)
        ;
}

void kernel(u64 hart, u64 reason)
{
    for (u64 other = 1; other < HARTS; other++)
        assert(sbi_hart_start(other, hart_start, 0) == SBI_SUCCESS);
    work(hart);
}

void hart_main(u64 hart, u64 opaque)
{
    work(hart);
}
