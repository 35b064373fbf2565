/* Eleven small kernels, each with a planted race (RACE and BUG defined) and without it (RACE alone), over the kit of the folder above.
   build.sh makes them, with a script for each whose last line shows what the kernel shows: the plain script of each passes. The eleventh
   shows it by the opaque value of its suspension alone. */
#include "guest.h"

#define BARRIER asm volatile("" : : : "memory")

static inline long begin(u64 hart)
{
    return sbi_hart_start(hart, hart_start, 0);
}

static inline void halt(void)
{
    sbi_hart_stop();
    for (;;)
        ;
}

static inline u64 state(u64 hart)
{
    return sbi_hart_get_status(hart).value;
}

#if RACE == 1 /* a flag is set before its data */
static volatile u64 flag, data, ack;

void kernel(u64 hart, u64 reason)
{
    begin(1);
    for (u64 i = 1; i <= 20; i++) {
#ifdef BUG
        flag = i;
        data = i << 3;
#else
        data = i << 3;
        flag = i;
#endif
        while (ack != i)
            ;
    }
    shown[1] = 1;
    halt();
}

void hart_main(u64 number, u64 opaque)
{
    u64 sum = 0;
    for (u64 i = 1; i <= 20; i++) {
        while (flag != i)
            ;
        sum += data;
        ack = i;
    }
    shown[0] = sum;
    halt();
}

#elif RACE == 2 /* a hart is started before its stack is set */
static volatile u64 stack[8];
static u64 stacks[8][32] __attribute__((aligned(16)));

/* A hart whose stack is not set yet counts as hart 7. */
asm(".text\n"
    "early: slli t0, a0, 3\n add t0, t0, a1\n ld sp, 0(t0)\n bnez sp, 1f\n li a0, 7\n la sp, stacks_end\n1: j runs\n");
void early(void);

__attribute__((used)) void runs(u64 number)
{
    shown[number & 3] = number;
    halt();
}

void kernel(u64 hart, u64 reason)
{
    for (u64 i = 1; i < 4; i++) {
#ifdef BUG
        sbi_hart_start(i, early, (u64)stack);
        stack[i] = (u64)(stacks[i] + 32);
#else
        stack[i] = (u64)(stacks[i] + 32);
        sbi_hart_start(i, early, (u64)stack);
#endif
    }
    for (u64 i = 1; i < 4; i++)
        while (!shown[i])
            ;
    shown[0] = 1;
    halt();
}

#elif RACE == 3 /* an interrupt is missed between the look and the suspension */
static volatile u64 mail, back;

void kernel(u64 hart, u64 reason)
{
    begin(1);
    for (u64 i = 1; i <= 20; i++) {
        mail = i;
        sbi_send_ipi(1, 1);
        while (back != i)
            ;
    }
    shown[1] = 1;
    halt();
}

void hart_main(u64 number, u64 opaque)
{
    asm volatile("csrsi sie, 2"); /* it wakes; it is never taken */
    for (u64 i = 1; i <= 20; i++) {
        for (;;) {
#ifdef BUG
            if (mail == i)
                break;
            asm volatile("csrci sip, 2" : : : "memory");
#else
            asm volatile("csrci sip, 2" : : : "memory");
            if (mail == i)
                break;
#endif
            sbi_hart_suspend(SBI_SUSPEND_RETENTIVE, 0, 0);
        }
        for (u64 j = 0; j < 20; j++)
            BARRIER;
        back = i;
    }
    shown[0] = 20;
    halt();
}

#elif RACE == 4 || RACE == 5 || RACE == 11 /* a lock by a load and a store, twice; Peterson's with its stores in the wrong order */
static volatile u64 lock, want[2], turn, count, done;

static void take(u64 me)
{
#if RACE != 5 && defined(BUG)
    while (lock)
        ;
    lock = 1;
#elif defined(BUG)
    turn = 1 - me;
    want[me] = 1;
    while (want[1 - me] && turn == 1 - me)
        ;
#else
    want[me] = 1;
    turn = 1 - me;
    while (want[1 - me] && turn == 1 - me)
        ;
#endif
}

static void give(u64 me)
{
    lock = 0;
    want[me] = 0;
}

static void work(u64 me)
{
    for (u64 i = 0; i < 30; i++) {
        take(me);
        count = count + 1;
        give(me);
        for (u64 j = 0; j < 40; j++)
            BARRIER;
    }
}

void kernel(u64 hart, u64 reason)
{
    begin(1);
    work(0);
    while (!done)
        ;
#if RACE == 11
    while (state(1) != SBI_STOPPED)
        ;
    board_suspend(SBI_TO_DISK, count);
#else
    shown[0] = count;
#endif
    halt();
}

void hart_main(u64 number, u64 opaque)
{
    work(1);
    done = 1;
    halt();
}

#elif RACE == 6 /* a hart is started again before it has stopped */
static volatile u64 rounds;

void kernel(u64 hart, u64 reason)
{
    for (u64 i = 1; i <= 5; i++) {
        begin(1);
        while (rounds != i)
            ;
#ifndef BUG
        while (state(1) != SBI_STOPPED)
            ;
#endif
    }
    shown[0] = rounds;
    halt();
}

void hart_main(u64 number, u64 opaque)
{
    for (u64 j = 0; j < 30; j++)
        BARRIER;
    rounds = rounds + 1;
    halt();
}

#elif RACE == 7 /* two words are read without a look whether they changed between */
#ifndef UPDATES
#define UPDATES 100
#endif
#ifndef READS
#define READS 10
#endif
static volatile u64 seq, a, b, done;

void kernel(u64 hart, u64 reason)
{
    begin(1);
    for (u64 i = 1; i <= UPDATES; i++) {
        seq = 2 * i - 1;
        a = i;
        b = i;
        seq = 2 * i;
        for (u64 j = 0; j < 50; j++)
            BARRIER;
    }
    while (!done)
        ;
    shown[1] = 1;
    halt();
}

void hart_main(u64 number, u64 opaque)
{
    u64 torn = 0;
    for (u64 i = 0; i < READS; i++) {
        u64 x, y, s;
        do {
            s = seq;
            x = a;
            y = b;
#ifdef BUG
        } while (0);
        (void)s;
#else
        } while (s & 1 || s != seq);
#endif
        torn += x != y;
        for (u64 j = 0; j < 200; j++)
            BARRIER;
    }
    shown[0] = torn;
    done = 1;
    halt();
}

#elif RACE == 8 /* the same with a sequence number of too few bits: two whole updates must fall between two loads */
#ifndef UPDATES
#define UPDATES 200
#endif
#ifndef READS
#define READS 40
#endif
static volatile u64 seq, a, b, done;

void kernel(u64 hart, u64 reason)
{
    begin(1);
    for (u64 i = 1; i <= UPDATES; i++) {
        seq = 2 * i - 1;
        a = i;
        b = i;
        seq = 2 * i;
        for (u64 j = 0; j < 5; j++)
            BARRIER;
    }
    while (!done)
        ;
    shown[1] = 1;
    halt();
}

void hart_main(u64 number, u64 opaque)
{
    u64 torn = 0;
    for (u64 i = 0; i < READS; i++) {
        u64 x, y, s;
        do {
            s = seq;
            x = a;
            y = b;
#ifdef BUG
        } while (s & 1 || (s & 3) != (seq & 3));
#else
        } while (s & 1 || s != seq);
#endif
        torn += x != y;
        for (u64 j = 0; j < 20; j++)
            BARRIER;
    }
    shown[0] = torn;
    done = 1;
    halt();
}

#elif RACE == 9 /* three harts: mail is forwarded, and the last one counts on the first one's note, which is written late */
static volatile u64 note, one, two, back;

void kernel(u64 hart, u64 reason)
{
    begin(1);
    begin(2);
    for (u64 i = 1; i <= 10; i++) {
#ifdef BUG
        one = i;
        for (u64 j = 0; j < 3; j++)
            BARRIER;
        note = i;
#else
        note = i;
        one = i;
#endif
        while (back != i)
            ;
    }
    shown[1] = 1;
    halt();
}

void hart_main(u64 number, u64 opaque)
{
    u64 sum = 0;
    for (u64 i = 1; i <= 10; i++) {
        if (number == 1) {
            while (one != i)
                ;
            for (u64 j = 0; j < 10; j++)
                BARRIER;
            two = i;
        } else {
            while (two != i)
                ;
            for (u64 j = 0; j < 10; j++)
                BARRIER;
            sum += note;
            back = i;
        }
    }
    if (number == 2)
        shown[0] = sum;
    halt();
}

#elif RACE == 10 /* what is sent between a start and the hart's first turn is taken before it enters, and it does not look */
static volatile u64 mail, back;

void kernel(u64 hart, u64 reason)
{
    for (u64 i = 1; i <= 5; i++) {
        begin(1);
        for (u64 j = 0; j < 400; j++)
            BARRIER;
        mail = i;
        sbi_send_ipi(1, 1);
        while (back != i)
            ;
        while (state(1) != SBI_STOPPED)
            ;
    }
    shown[0] = back;
    halt();
}

void hart_main(u64 number, u64 opaque)
{
    asm volatile("csrsi sie, 2"); /* it wakes; it is never taken */
#ifdef BUG
    sbi_hart_suspend(SBI_SUSPEND_RETENTIVE, 0, 0);
#endif
    while (mail == back)
        sbi_hart_suspend(SBI_SUSPEND_RETENTIVE, 0, 0);
    back = mail;
    halt();
}
#endif
