/* All harts go through rounds together: each tells the round that it is in, and waits until all have told it. In each round a hart adds up
   what all made in the round before. Hart 0 shows the sum of what they end with, the same in each order. */
#include "guest.h"

#ifndef ROUNDS
#define ROUNDS 3
#endif

static volatile u64 round_of[HARTS];
static volatile u64 made[2][HARTS]; /* of even and of odd rounds: who is late reads what a hart that is ahead does not write yet */
static volatile u64 ended_with[HARTS]; /* 0 until then */

static void meet(u64 hart, u64 round)
{
    round_of[hart] = round;
    for (u64 other = 0; other < HARTS; other++)
        while (round_of[other] < round)
            ;
}

static u64 run(u64 hart)
{
    u64 own = hart + 1;
    for (u64 round = 1; round <= ROUNDS; round++) {
        made[round & 1][hart] = own;
        meet(hart, round);
        own = hart;
        for (u64 other = 0; other < HARTS; other++)
            own += made[round & 1][other];
    }
    return own;
}

void hart_main(u64 hart, u64 opaque)
{
    ended_with[hart] = run(hart);
    sbi_hart_stop();
}

void kernel(u64 hart, u64 reason)
{
    for (u64 other = 1; other < HARTS; other++)
        sbi_hart_start(other, hart_start, 0);
    u64 sum = run(0);
    for (u64 other = 1; other < HARTS; other++) {
        while (!ended_with[other])
            ;
        sum += ended_with[other];
    }
    shown[0] = sum;
    sbi_hart_stop();
}
