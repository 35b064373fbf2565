/* A lock without atomic instructions, for up to eight harts: Lamport's bakery ("A new solution of Dijkstra's concurrent programming
   problem", 1974). A lock in .bss is free at a boot. Each hart takes it under its own number, below HARTS, and leaves it itself.

   The fences are for a chip whose harts see each other's stores late. This board needs none of them (docs/KERNEL.md, "What you can rely
   on"), so no run of a bench shows that one is missing. */
#ifndef LOCK_H
#define LOCK_H

#include "sbi.h"

#ifndef HARTS
#define HARTS MOST_HARTS
#endif

#ifndef LOCK_DRAWS
#define LOCK_DRAWS 1 /* 0 makes a lock with a race: no hart sees that another one is drawing */
#endif

struct lock {
    volatile u64 draws[HARTS];  /* 1 while the hart draws its ticket */
    volatile u64 ticket[HARTS]; /* 0 of a hart that neither waits for the lock nor holds it */
};

static inline void lock_fence(void)
{
    asm volatile("fence rw, rw" : : : "memory");
}

/* One more than each ticket that it sees. Two harts may draw the same one: then the lower number goes first. */
static inline void lock_draw(struct lock *lock, u64 hart)
{
    u64 most = 0;
    lock->draws[hart] = LOCK_DRAWS;
    lock_fence(); /* whoever does not see the ticket below sees that it is being drawn */
    for (u64 other = 0; other < HARTS; other++) {
        u64 ticket = lock->ticket[other];
        if (ticket > most)
            most = ticket;
    }
    lock->ticket[hart] = most + 1;
    lock_fence(); /* the ticket stands before its drawing ends, and before another one is looked at */
    lock->draws[hart] = 0;
}

/* Whether the other hart's turn comes before this one's. */
static inline int lock_is_before(struct lock *lock, u64 other, u64 hart)
{
    u64 theirs = lock->ticket[other], own = lock->ticket[hart];
    return theirs != 0 && (theirs < own || (theirs == own && other < hart));
}

/* Waits until the lock is this hart's. Have interrupts off first where a handler takes the same lock: it would wait for its own hart. */
static inline void lock_take(struct lock *lock, u64 hart)
{
    lock_draw(lock, hart);
    for (u64 other = 0; other < HARTS; other++) {
        while (lock->draws[other])
            ;
        lock_fence(); /* the ticket is looked at once it is drawn */
        while (lock_is_before(lock, other, hart))
            ;
    }
    lock_fence(); /* what the lock guards is read once it is held */
}

/* An image keeps a lock as it stands: leave it before the board sleeps. */
static inline void lock_leave(struct lock *lock, u64 hart)
{
    lock_fence(); /* what was written under the lock stands before it is free */
    lock->ticket[hart] = 0;
}

#endif
