/* A workshop that survives (docs/CHECKING.md). Hart 0 puts a batch of pieces into a queue, starts the other harts, and waits for an
   interrupt. They take pieces and add up their squares, under a lock; one that finds the queue empty waits for an interrupt. Once all
   pieces are taken they stop, and the board sleeps on the disk before the next batch. It shows the sum and how many pieces were taken: the
   same in every order of the harts, wherever power fails, and whatever sleep is refused.

   CFLAGS="-DPIECES=2 -DBATCH=1" makes it smaller. CFLAGS=-DMISTAKE=N makes one of thirteen mistakes, which is told where it is made.
   CFLAGS=-DENDLESS makes it sleep for ever, and count its sleeps. */
#ifndef MISTAKE
#define MISTAKE 0
#endif
#if MISTAKE == 5 || MISTAKE == 8
#define LOCK_DRAWS 0 /* 5: the lock has a race. 8: the same, and an assertion sees it */
#endif
#include "guest.h"
#include "lock.h"

#ifndef PIECES
#define PIECES 9
#endif
#ifndef BATCH
#define BATCH 3
#endif
#define WORKERS (HARTS - 1)

enum { SHOWN_SUM, SHOWN_TAKEN, SHOWN_SLEEPS };

static volatile u64 queue[BATCH]; /* a ring: the piece before which N were dealt stands at N % BATCH */
static volatile u64 dealt, taken; /* how many pieces were put into the queue, and taken from it */
static volatile u64 closing;      /* 1 where a worker that has no piece is to stop */

/* What the lock guards, beside what is taken. */
static struct lock lock;
static volatile u64 sum;    /* of the squares of the pieces that are done */
static volatile u64 ready;  /* how many workers have begun */
static volatile u64 inside; /* how many harts hold the lock */

static void enter(u64 hart)
{
    lock_take(&lock, hart);
    if (MISTAKE == 8) {
        if (inside != 0)
            asm volatile("ebreak"); /* an assertion: there is no handler */
        inside = 1;
    }
}

static void leave(u64 hart)
{
    if (MISTAKE == 8)
        inside = 0;
    lock_leave(&lock, hart);
}

/* Whoever waits has looked before, and looks again: an interrupt that comes between is still pending. */
static void wait_for_interrupt(void)
{
    if (MISTAKE == 1)
        take_interrupt(); /* 1: what came after the look is lost */
    sbi_hart_suspend(SBI_SUSPEND_RETENTIVE, 0, 0);
    take_interrupt();
}

/* ---- a worker */

static int all_are_taken(void)
{
    return taken == dealt && ready == WORKERS;
}

/* Adds a piece that is done, or 0, and takes the next one: 0 where there is none. Hart 0 is told where that was the last. */
static u64 next_piece(u64 hart, u64 piece, u64 begins)
{
    if (MISTAKE == 4)
        ready = ready + begins; /* 4: two harts count themselves at the same time */
    enter(hart);
    if (MISTAKE != 4)
        ready = ready + begins;
    if (MISTAKE == 10 && closing)
        sbi_hart_stop(); /* 10: it stops, and keeps its ticket of the lock */
    sum = sum + piece * piece;
    piece = 0;
    if (taken != dealt) {
        piece = queue[taken % BATCH];
        taken = taken + 1;
    }
    int is_last = all_are_taken();
    leave(hart);
    if (is_last)
        sbi_send_ipi(1, 0);
    return piece;
}

void hart_main(u64 hart, u64 opaque)
{
    u64 piece = 0, begins = 1;
    while (!closing || (piece != 0 && MISTAKE != 3)) { /* 3: it stops with a piece in its registers */
        if (MISTAKE == 13 && piece == 2)
            piece = *(volatile u64 *)0; /* 13: nothing is at address 0 */
        piece = next_piece(hart, piece, begins);
        begins = 0;
        if (piece == 0 && !closing)
            wait_for_interrupt();
    }
    sbi_hart_stop();
}

/* ---- hart 0 */

/* All workers have stopped. */
static void deal_batch(void)
{
    for (u64 n = 0; n < BATCH; n++) {
        queue[dealt % BATCH] = dealt + 1;
        dealt = dealt + 1;
    }
}

static void start_workers(void)
{
    ready = 0;
    if (MISTAKE != 12)
        closing = 0;
    for (u64 worker = 1; worker <= WORKERS; worker++)
        sbi_hart_start(worker, hart_start, 0);
    if (MISTAKE == 12)
        closing = 0; /* 12: a worker may have begun, and stopped again */
}

static void await_workers(void)
{
    if (MISTAKE == 7)
        enter(0); /* 7: no piece can be taken while it waits */
    while (!all_are_taken())
        wait_for_interrupt();
    if (MISTAKE == 7)
        leave(0);
}

/* A worker that has a piece adds it first. */
static void stop_workers(void)
{
    closing = 1;
    sbi_send_ipi((1 << WORKERS) - 1, 1);
    for (u64 worker = 1; worker <= WORKERS; worker++)
        while (sbi_hart_get_status(worker).value != SBI_STOPPED)
            ;
}

/* Begins wherever the work stands. After a sleep the board goes on in `woken`; where that was refused, here, with all as it was. */
static _Noreturn void run(void)
{
    int was_refused = 0;
    u64 own = 0;
    while (taken < PIECES) {
        u64 before = sum;
        deal_batch();
        if (MISTAKE != 2 || !was_refused) /* 2: it thinks that they still run */
            start_workers();
        if (MISTAKE == 11 && was_refused)
            sum = before; /* 11: what a worker has added by now is lost */
        await_workers();
        stop_workers();
        own = own + sum - before;
        sbi_system_suspend(SBI_TO_DISK, board_wake, 0);
        if (MISTAKE == 6 && !was_refused)
            taken = taken - BATCH, dealt = dealt - BATCH; /* 6: a batch that was done is dealt again */
        was_refused = 1;
    }
    shown[SHOWN_SUM] = MISTAKE == 9 ? own : sum; /* 9: a sum in a register, which no image keeps */
    shown[SHOWN_TAKEN] = taken;
    for (;;) {
#ifdef ENDLESS
        shown[SHOWN_SLEEPS] = shown[SHOWN_SLEEPS] + 1;
        board_suspend(SBI_TO_DISK, 0);
#endif
    }
}

/* At a boot nothing is left of the life before: all begins anew. */
void kernel(u64 hart, u64 reason)
{
    run();
}

void woken(u64 hart, u64 opaque)
{
    run();
}
