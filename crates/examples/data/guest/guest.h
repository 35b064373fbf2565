/* What start.S and guest.ld offer to a kernel in C. */
#ifndef GUEST_H
#define GUEST_H

#include "sbi.h"

/* Eight words at 0x80000040, for a script's line `mem` and for a reader of an image. */
extern volatile u64 shown[8];

/* A kernel has the first of these; the others where it uses what calls them. */
void kernel(u64 hart, u64 reason);     /* hart 0 at a boot */
void hart_main(u64 hart, u64 opaque);  /* a hart that begins at hart_start */
void woken(u64 hart, u64 opaque);      /* the hart of a board that wakes at board_wake */
void hart_start(void);
void board_wake(void);

/* A line of text and a number, for tools/guest-text, from a script's `mem`, from an image, or under GDB. Each hart keeps its newest
   SAID_LINES lines (a power of two: CFLAGS=-DSAID_LINES=64), of SAID_TEXT letters at most. say knows its hart by the stack that start.S
   gave it; on a stack of your own take say_as. */
void say(const char *text, u64 value);
void say_as(u64 hart, const char *text, u64 value);

#ifndef SAID_LINES
#define SAID_LINES 8
#endif
#define SAID_TEXT 40

struct said {
    unsigned mark; /* "said" once the line is whole */
    unsigned hart;
    u64 number; /* what was said before, by whichever hart, has a lower one */
    u64 value;
    char text[SAID_TEXT];
};

/* A suspend of the board that returns where it was called: SBI_SUCCESS once the board woke, or the error. Interrupts are off then, and
   stvec, sie and sscratch are to be set anew. */
long board_suspend(u64 type, u64 opaque);

/* What a trap keeps of what ran: the address at which it goes on (sepc), the registers x1 to x31, and the stack of the handler. */
struct frame {
    u64 pc;
    u64 x[31]; /* x[N - 1] is register N */
    u64 handler_stack;
};

#define FRAME_SP 1  /* x2 */
#define FRAME_A0 9  /* x10 */
#define FRAME_A1 10 /* x11 */

/* The kernel's handler: of the frame that trapped to the frame that goes on, with interrupts on. */
struct frame *trap(struct frame *frame);
void trap_entry(void);
_Noreturn void go_on(struct frame *frame);

/* The first trap of a hart whose traps end the board. */
struct first_trap {
    u64 is_there; /* 1 once there was one */
    u64 cause;    /* scause */
    u64 pc;       /* sepc */
    u64 value;    /* stval */
};

extern struct first_trap first_traps[MOST_HARTS]; /* start.S */
void trap_stop(void);

static inline u64 trap_cause(void)
{
    u64 cause;
    asm volatile("csrr %0, scause" : "=r"(cause));
    return cause;
}

/* Where trap_entry keeps what runs now. */
static inline void set_frame(struct frame *frame)
{
    asm volatile("csrw sscratch, %0" : : "r"(frame) : "memory");
}

/* Where the traps of this hart go. */
static inline void set_trap(void (*entry)(void))
{
    asm volatile("csrw stvec, %0" : : "r"(entry));
}

/* Each trap of this hart is kept in its words of first_traps, and shuts the board down with reason 1, "system failure". */
static inline void stop_at_traps(u64 hart)
{
    asm volatile("csrw sscratch, %0" : : "r"(&first_traps[hart]) : "memory");
    set_trap(trap_stop);
}

/* The software interrupt wakes this hart, and traps while interrupts are on. */
static inline void allow_interrupt(void)
{
    asm volatile("csrsi sie, %0" : : "i"(SIE_SSIE));
}

static inline void interrupts_on(void)
{
    asm volatile("csrsi sstatus, %0" : : "i"(SSTATUS_SIE) : "memory");
}

static inline int interrupt_is_pending(void)
{
    u64 pending;
    asm volatile("csrr %0, sip" : "=r"(pending) : : "memory");
    return (pending & SIP_SSIP) != 0;
}

/* Takes what is pending: look at what it may tell of after this, never before. */
static inline void take_interrupt(void)
{
    asm volatile("csrci sip, %0" : : "i"(SIP_SSIP) : "memory");
}

#endif
