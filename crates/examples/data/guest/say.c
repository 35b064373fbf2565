/* What a kernel says, for a reader of its memory (guest.h; docs/KERNEL.md, "What a program can show"). */
#include "guest.h"

#define SAID_MARK 0x64696173 /* "said" */

/* The newest lines of each hart. The linker leaves them out of a kernel that says nothing. */
struct said said[HARTS][SAID_LINES] __attribute__((aligned(64)));

/* How many lines a hart has begun, and the number of its newest. Each is written by its own hart alone. */
static volatile u64 begun[HARTS], newest[HARTS];

extern char stacks_end[];

/* The hart on whose stack this runs (start.S gives hart N the N-th stack from the end). */
static u64 hart_here(void)
{
    u64 sp, hart = 0;
    asm volatile("mv %0, sp" : "=r"(sp));
    for (u64 end = (u64)stacks_end; hart + 1 < HARTS && sp <= end - STACK_BYTES; end -= STACK_BYTES)
        hart++;
    return hart;
}

/* One more than every number there is: so what was said before, by whichever hart, has a lower one. */
static u64 next_number(void)
{
    u64 most = 0;
    for (u64 hart = 0; hart < HARTS; hart++)
        if (newest[hart] > most)
            most = newest[hart];
    return most + 1;
}

void say_as(u64 hart, const char *text, u64 value)
{
    u64 status;
    asm volatile("csrrci %0, sstatus, %1" : "=r"(status) : "i"(SSTATUS_SIE) : "memory");
    volatile struct said *line = &said[hart][begun[hart]++ & (SAID_LINES - 1)];
    line->mark = 0;
    line->number = newest[hart] = next_number();
    line->hart = hart;
    line->value = value;
    u64 n = 0;
    for (; n < SAID_TEXT && text[n]; n++)
        line->text[n] = text[n];
    for (; n < SAID_TEXT; n++)
        line->text[n] = 0;
    line->mark = SAID_MARK;
    asm volatile("csrs sstatus, %0" : : "r"(status & SSTATUS_SIE) : "memory");
}

void say(const char *text, u64 value)
{
    say_as(hart_here(), text, value);
}
