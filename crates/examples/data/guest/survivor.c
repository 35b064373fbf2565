/* A sum that survives power cuts (docs/KERNEL.md, "A kernel that survives power cuts"). The kernel adds up the squares of 1 to 6, and puts
   the board to sleep on the disk after each. It shows the sum and how many squares are in it, which are the same at the end wherever power
   failed, and whichever sleep was refused.

   CFLAGS=-DMISTAKE=1, 2 or 3 makes one of three mistakes, each of which only a refused sleep shows. */
#include "guest.h"

#ifndef MISTAKE
#define MISTAKE 0
#endif

enum { SQUARES = 6 };
enum { SHOWN_SUM, SHOWN_DONE };

/* After a resume all is as it was. After a refusal too, and the board never slept; but the image may stand all the same. */
static long sleep(void)
{
    return board_suspend(SBI_TO_DISK, shown[SHOWN_DONE]);
}

static void add(u64 number)
{
    u64 sum __attribute__((unused)) = shown[SHOWN_SUM] + number * number;
#if MISTAKE == 0
    /* The sum and how far it goes change together: each image has both, or none of both. The answer of the sleep is not needed. */
    shown[SHOWN_SUM] = sum;
    shown[SHOWN_DONE] = number;
    sleep();
#elif MISTAKE == 1
    /* The sum is put aside for the sleep, and taken back only after a resume: a refused sleep loses it. */
    shown[SHOWN_SUM] = 0;
    shown[SHOWN_DONE] = number;
    if (sleep() == SBI_SUCCESS)
        shown[SHOWN_SUM] = sum;
#elif MISTAKE == 2
    /* Where its sleep is refused it begins anew with the addition, and not with the sleep: the same square is added twice. */
    for (int tries = 0; tries < 2; tries++) {
        shown[SHOWN_SUM] = shown[SHOWN_SUM] + number * number;
        if (sleep() == SBI_SUCCESS)
            break;
    }
    shown[SHOWN_DONE] = number;
#elif MISTAKE == 3
    /* The square is marked as done before its sleep was acknowledged, and added after it: a refused sleep leaves it out. */
    shown[SHOWN_DONE] = number;
    if (sleep() == SBI_SUCCESS)
        shown[SHOWN_SUM] = sum;
#endif
}

/* Hart 0 at a boot: nothing is left of any life before, so all begins anew. Resumed, the kernel goes on where it slept. */
void kernel(u64 hart, u64 reason)
{
    while (shown[SHOWN_DONE] < SQUARES)
        add(shown[SHOWN_DONE] + 1);
    for (;;)
        ;
}
