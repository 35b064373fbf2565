/* Hart 0 deals numbers to the other harts, each through a box of its own with one writer at each end, and adds up what they made of them.
   It shows the sum, the same in each order. No word has two writers, so there is no lock. */
#include "guest.h"

#ifndef ITEMS
#define ITEMS 4
#endif

enum { LAST = 0 }; /* what a worker is given at the end */

static volatile u64 box[HARTS], result[HARTS]; /* a worker's number; the sum of what it made */
static volatile u64 given[HARTS], taken[HARTS]; /* how many numbers were put into the box, and how many are done with */
static volatile u64 is_done[HARTS];

static u64 made_of(u64 number)
{
    for (int round = 0; round < 8; round++) {
        number ^= number << 13;
        number ^= number >> 7;
        number ^= number << 17;
    }
    return number;
}

void hart_main(u64 hart, u64 opaque)
{
    for (u64 n = 1;; n++) {
        while (given[hart] != n)
            ;
        u64 number = box[hart];
        if (number == LAST)
            break;
        result[hart] = result[hart] + made_of(number);
        taken[hart] = n;
    }
    is_done[hart] = 1;
    sbi_hart_stop();
}

static void give(u64 hart, u64 number)
{
    box[hart] = number;
    given[hart] = given[hart] + 1;
}

void kernel(u64 hart, u64 reason)
{
    for (u64 other = 1; other < HARTS; other++)
        sbi_hart_start(other, hart_start, 0);
    for (u64 item = 1; item <= ITEMS;)
        for (u64 other = 1; other < HARTS && item <= ITEMS; other++)
            if (taken[other] == given[other])
                give(other, item++);
    u64 sum = 0;
    for (u64 other = 1; other < HARTS; other++) {
        while (taken[other] != given[other])
            ;
        give(other, LAST);
    }
    for (u64 other = 1; other < HARTS; other++) {
        while (!is_done[other])
            ;
        sum += result[other];
    }
    shown[0] = sum;
    sbi_hart_stop();
}
