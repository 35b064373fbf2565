/* A first kernel in C: it asks the firmware who it is, takes a trap, and suspends the board; each time that the board is resumed it counts
   that, and suspends it again. It shows the version of the SBI, the traps taken, the cause of the last one, and the number of resumes. */
#include "guest.h"

enum { SHOWN_VERSION, SHOWN_TRAPS, SHOWN_CAUSE, SHOWN_RESUMES };

static u64 traps; /* in .bss: RAM is zero at power-on, and it takes no bytes of the payload */
static u64 handler_stack[16] __attribute__((aligned(16)));
static struct frame frame;

/* After a resume too: of the hart's registers only the stack and what a call keeps are as they were. */
static void set_up(void)
{
    frame.handler_stack = (u64)(handler_stack + 16);
    set_frame(&frame);
    set_trap(trap_entry);
}

/* Goes on past the instruction that trapped. */
struct frame *trap(struct frame *frame)
{
    shown[SHOWN_TRAPS] = ++traps;
    shown[SHOWN_CAUSE] = trap_cause();
    frame->pc += 4;
    return frame;
}

void kernel(u64 hart, u64 reason)
{
    set_up();
    shown[SHOWN_VERSION] = sbi_get_spec_version();
    asm volatile("ld zero, 0(zero)"); /* no memory is at 0: a load access fault, cause 5 */
    for (;;) {
        board_suspend(SBI_TO_DISK, 7);
        set_up();
        shown[SHOWN_RESUMES] = shown[SHOWN_RESUMES] + 1;
    }
}
