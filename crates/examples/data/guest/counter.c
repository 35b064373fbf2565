/* A count in memory that outlives power. The kernel counts ten times, asks for a suspension to disk with its count as the opaque value,
   and when the board is resumed it goes on to count where it was. It shows the count, how often the board was resumed, what its last
   resume found in a1, and the error of a suspension that was refused. */
#include "guest.h"

enum { SHOWN_COUNT, SHOWN_RESUMES, SHOWN_FOUND, SHOWN_REFUSED };

static void count(void)
{
    for (;;) {
        for (int times = 0; times < 10; times++)
            shown[SHOWN_COUNT] = shown[SHOWN_COUNT] + 1;
        shown[SHOWN_REFUSED] = (u64)sbi_system_suspend(SBI_TO_DISK, board_wake, shown[SHOWN_COUNT]);
    }
}

void kernel(u64 hart, u64 reason)
{
    count();
}

/* The board that was resumed begins here: its memory is as it was, its stack is empty. */
void woken(u64 hart, u64 opaque)
{
    shown[SHOWN_RESUMES] = shown[SHOWN_RESUMES] + 1;
    shown[SHOWN_FOUND] = opaque;
    count();
}
