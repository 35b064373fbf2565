/* A kernel of the size of a real one: all harts of the board work, each with two tasks that interrupts of other harts preempt; letters go
   from hart to hart without a lock; and in the middle of that the board sleeps to disk, to RAM and to disk again.

   The writer of each hart sends LETTERS letters to the reader of the next one, the last hart's to hart 0's, and each reader folds what it
   reads into a digest, in the order in which it was written. So no schedule changes a digest, whoever runs when. Hart 0 folds the
   digests into a sum, shows it, and suspends the board to disk with the sum as the opaque value, which `sbidisk` prints. Resumed, the
   board shuts down: reason 0 where no call was refused, else 1. tools/trials/try-guests computes the sum on its own.

   What it shows: the harts, the sum, the sleeps from which it woke, the calls that were refused, how often a task was preempted, how
   often a hart suspended itself, and of an unexpected trap its cause and its pc. */
#include "guest.h"

#define LETTERS 24ul
#define ROOM 4ul           /* letters that a box holds, a power of 2 */
#define WORK 16            /* steps from a word to the next one */
#define TASK_STACK 512ul   /* bytes */
#define SLEEPS 3ul
#define SLEEP_EVERY 6ul    /* letters of hart 0's writer */

enum { WRITER, READER, TASKS };

enum { SHOWN_HARTS, SHOWN_SUM, SHOWN_WOKEN, SHOWN_REFUSED, SHOWN_PREEMPTED, SHOWN_WAITS, SHOWN_CAUSE, SHOWN_PC };

/* Letters from one writer to one reader. Only the writer changes `put`, and only the reader `taken`: so neither needs a lock, as long as
   the letter is there before `put` says so, and read before `taken` does. Both count on; their difference is what the box holds. */
struct box {
    volatile u64 letters[ROOM];
    volatile u64 put;
    volatile u64 taken;
};

/* The frame is first: the trap handler finds the task by it. */
struct task {
    struct frame frame;
    u64 hart;
    u64 waits;   /* for its box: it can run once the box has room, or a letter */
    u64 is_done;
    u64 stack[TASK_STACK / sizeof(u64)] __attribute__((aligned(16)));
};

/* All but the box is the hart's own. */
struct hart {
    struct task tasks[TASKS];
    u64 last;    /* the task that ran last */
    u64 written; /* letters */
    u64 digest;
    u64 preempted;
    u64 suspended;
    struct box box; /* what the hart before it wrote */
};

static struct hart harts[HARTS];
static u64 count;                /* of the board's harts */
static volatile u64 is_closing;  /* hart 0 has the others stop */
static u64 sleeps;
static u64 refused;

extern u64 stacks_end[];
extern char STACK[]; /* its address is the number of bytes */

/* Words and digests */

static u64 rotated(u64 word, int by)
{
    return word << by | word >> (64 - by);
}

static u64 next_word(u64 word)
{
    for (int step = 0; step < WORK; step++) {
        word ^= word << 13;
        word ^= word >> 7;
        word ^= word << 17;
    }
    return word;
}

static u64 first_word(u64 number)
{
    return 0x9E3779B97F4A7C15 + number;
}

static u64 folded(u64 digest, u64 letter)
{
    return rotated(digest, 7) + (letter ^ digest);
}

/* Harts */

static u64 hart_after(u64 number)
{
    return number + 1 == count ? 0 : number + 1;
}

static u64 hart_before(u64 number)
{
    return number == 0 ? count - 1 : number - 1;
}

static u64 handler_stack(u64 number)
{
    return (u64)stacks_end - number * (u64)STACK;
}

/* A call of the firmware that has to succeed. It is noted where it does not, and the work goes on: then the result says so. */
static void expect(long error)
{
    if (error != SBI_SUCCESS)
        refused++;
}

/* Nothing that was sent is lost: an interrupt is pending from the call on, whatever its hart does. */
static void interrupt(u64 number)
{
    expect(sbi_send_ipi(1, number));
}

_Noreturn static void fail(u64 cause, u64 pc)
{
    shown[SHOWN_CAUSE] = cause;
    shown[SHOWN_PC] = pc;
    for (;;)
        sbi_system_reset(SBI_SHUTDOWN, SBI_SYSTEM_FAILURE);
}

/* Boxes */

static int is_empty(const struct box *box)
{
    return box->put == box->taken;
}

static int is_full(const struct box *box)
{
    return box->put - box->taken == ROOM;
}

static void put(struct box *box, u64 letter)
{
    box->letters[box->put % ROOM] = letter;
    box->put = box->put + 1;
}

static u64 take(struct box *box)
{
    u64 letter = box->letters[box->taken % ROOM];
    box->taken = box->taken + 1;
    return letter;
}

/* Tasks. They give way by EBREAK, since ECALL is the firmware's. */

static void give_way(void)
{
    asm volatile("ebreak" : : : "memory");
}

/* Before the look, since an interrupt may come between both: the scheduler looks again. */
static void wait_for_box(struct task *task)
{
    task->waits = 1;
    give_way();
}

_Noreturn static void end_task(struct task *task)
{
    task->is_done = 1;
    for (;;)
        give_way();
}

_Noreturn static void writer(u64 number)
{
    struct hart *hart = &harts[number];
    struct box *box = &harts[hart_after(number)].box;
    u64 word = first_word(number);
    while (hart->written < LETTERS) {
        word = next_word(word);
        while (is_full(box))
            wait_for_box(&hart->tasks[WRITER]);
        put(box, word);
        hart->written++;
        interrupt(hart_after(number));
    }
    end_task(&hart->tasks[WRITER]);
}

_Noreturn static void reader(u64 number)
{
    struct hart *hart = &harts[number];
    for (u64 letter = 0; letter < LETTERS; letter++) {
        while (is_empty(&hart->box))
            wait_for_box(&hart->tasks[READER]);
        hart->digest = folded(hart->digest, take(&hart->box));
        interrupt(hart_before(number));
    }
    end_task(&hart->tasks[READER]);
}

static void make_task(u64 number, u64 which, void (*begin)(u64))
{
    struct task *task = &harts[number].tasks[which];
    task->hart = number;
    task->frame.pc = (u64)begin;
    task->frame.x[FRAME_A0] = number;
    task->frame.x[FRAME_SP] = (u64)(task->stack + TASK_STACK / sizeof(u64));
    task->frame.handler_stack = handler_stack(number);
}

/* The scheduler. It runs on the handler's stack, with interrupts off. */

static int can_run(u64 number, u64 which)
{
    const struct task *task = &harts[number].tasks[which];
    if (task->is_done)
        return 0;
    if (!task->waits)
        return 1;
    return which == WRITER ? !is_full(&harts[hart_after(number)].box) : !is_empty(&harts[number].box);
}

/* The task that goes on: the other one first, if it can. Null where neither can. */
static struct task *ready(u64 number)
{
    struct hart *hart = &harts[number];
    for (u64 tried = 0; tried < TASKS; tried++) {
        hart->last = hart->last + 1 == TASKS ? 0 : hart->last + 1;
        if (can_run(number, hart->last)) {
            hart->tasks[hart->last].waits = 0;
            return &hart->tasks[hart->last];
        }
    }
    return 0;
}

static int is_through(u64 number)
{
    return harts[number].tasks[WRITER].is_done && harts[number].tasks[READER].is_done;
}

/* A suspend that loses no interrupt: interrupts are off, and this hart has looked. What came since the look is pending, and so ends
   the suspend at once; what is taken here is followed by a look. */
static void wait_for_interrupt(u64 number)
{
    harts[number].suspended++;
    expect(sbi_hart_suspend(SBI_SUSPEND_RETENTIVE, 0, 0));
    take_interrupt();
}

/* The sleeps of the board. Hart 0 alone makes them; all others have stopped before, their tasks in their frames. */

static void set_up(void)
{
    set_trap(trap_entry);
    allow_interrupt();
}

static void start_others(void)
{
    for (u64 number = 1; number < count; number++)
        expect(sbi_hart_start(number, hart_start, 0));
}

static void await_stop_of_others(void)
{
    for (u64 number = 1; number < count; number++)
        while (sbi_hart_get_status(number).value != SBI_STOPPED)
            ;
}

/* A hart that has not entered yet takes the interrupt before it enters, and then looks. */
static void stop_others(void)
{
    is_closing = 1;
    expect(sbi_send_ipi(0, SBI_ALL_HARTS));
    await_stop_of_others();
    is_closing = 0;
}

static void sleep_board(u64 type)
{
    stop_others();
    sleeps++;
    long error = board_suspend(type, sleeps);
    set_up();
    expect(error);
    if (error == SBI_SUCCESS)
        shown[SHOWN_WOKEN] = shown[SHOWN_WOKEN] + 1;
    start_others();
}

static int is_time_to_sleep(void)
{
    return sleeps < SLEEPS && harts[0].written >= SLEEP_EVERY * (sleeps + 1);
}

/* To disk, to RAM, to disk. */
static u64 sleep_type(void)
{
    return sleeps == 1 ? SBI_TO_RAM : SBI_TO_DISK;
}

/* The end */

static u64 sum_of_digests(void)
{
    u64 sum = count;
    for (u64 number = 0; number < count; number++)
        sum = folded(sum, harts[number].digest);
    return sum;
}

static void show(void)
{
    shown[SHOWN_HARTS] = count;
    shown[SHOWN_SUM] = sum_of_digests();
    shown[SHOWN_REFUSED] = refused;
    for (u64 number = 0; number < count; number++) {
        shown[SHOWN_PREEMPTED] = shown[SHOWN_PREEMPTED] + harts[number].preempted;
        shown[SHOWN_WAITS] = shown[SHOWN_WAITS] + harts[number].suspended;
    }
}

/* Each other hart stops itself when it is through. */
_Noreturn static void end_board(void)
{
    await_stop_of_others();
    show();
    expect(board_suspend(SBI_TO_DISK, shown[SHOWN_SUM]));
    for (;;)
        sbi_system_reset(SBI_SHUTDOWN, refused ? SBI_SYSTEM_FAILURE : SBI_NO_REASON);
}

/* What goes on on this hart. It looks before each suspend: after a start too, by which what was sent before the hart's first turn is taken. */
static struct frame *next_frame(u64 number)
{
    for (;;) {
        if (number == 0) {
            while (is_time_to_sleep())
                sleep_board(sleep_type());
            if (is_through(number))
                end_board();
        } else if (is_closing || is_through(number)) {
            sbi_hart_stop();
        }
        struct task *task = ready(number);
        if (task)
            return &task->frame;
        wait_for_interrupt(number);
    }
}

struct frame *trap(struct frame *frame)
{
    struct task *task = (struct task *)frame;
    u64 cause = trap_cause();
    if (cause == CAUSE_SOFTWARE_INTERRUPT) {
        take_interrupt();
        harts[task->hart].preempted++;
    } else if (cause == CAUSE_BREAKPOINT) {
        frame->pc += 4;
    } else {
        fail(cause, frame->pc);
    }
    return next_frame(task->hart);
}

/* Also after each sleep: the tasks go on where they were. */
void hart_main(u64 number, u64 opaque)
{
    set_up();
    go_on(next_frame(number));
}

void kernel(u64 number, u64 reason)
{
    count = sbi_count_harts();
    for (u64 each = 0; each < count; each++) {
        make_task(each, WRITER, writer);
        make_task(each, READER, reader);
    }
    start_others();
    hart_main(number, 0);
}
