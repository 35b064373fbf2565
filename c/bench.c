/* The bench of cuts: ./bench [CUTS]
 *
 * Commands are drawn and given to the library over a device in memory, and power is cut at a call that is drawn too, within formats, opens,
 * renewals and commands. After each cut the device is opened again: what it finds has to be the state before the command or the one after
 * it, and after an answer of 0 the one after it. The states are computed here, by the table of docs/DURABLE.md and by nothing of the
 * library. A memory of 8 pages is suspended in the same way, also over an image that stands: each image that is found then has to load as
 * its memory, byte for byte, and one with a byte changed may not. Each call is also made to fail once without a cut. The last line says how
 * many cuts there were, and how many were wrong; the status is 1 where one was. */
#include "device.h"
#include "sbistore.h"

#include <stdio.h>
#include <stdlib.h>
#include <string.h>

/* The durable state as the table has it, with the memory of its image. */
struct model {
    uint32_t slot, reason, on_trial, fallback, left, has_image, hart;
    uint64_t next, serial, address, opaque;
    uint8_t memory[PAGES][SBISTORE_PAGE];
};

static unsigned long cuts, wrong, failures, formats, renewals, suspensions, loads, commands[8];

enum { HARTS = 2 };

/* The memory of the board, whose pages the library asks for. */
static uint8_t pages[PAGES][SBISTORE_PAGE];

static uint32_t run(struct sbistore *store)
{
    uint8_t sector[SBISTORE_SECTOR];
    uint32_t failed = 0;
    for (;;)
        switch (sbistore_next(store, failed, sector)) {
        case SBISTORE_READ: failed = device_read(store->number, sector); break;
        case SBISTORE_WRITE: failed = device_write(store->number, sector); break;
        case SBISTORE_SYNC: failed = device_sync(); break;
        case SBISTORE_READ_PAGE: failed = device_read_page(store->number, pages[store->page]); break;
        case SBISTORE_WRITE_PAGE: failed = device_write_page(store->number, pages[store->page]); break;
        default: return (uint32_t)store->number;
        }
}

static uint32_t do_open(struct sbistore *store)
{
    sbistore_open(store, SECTORS);
    return run(store);
}

static uint32_t do_format(struct sbistore *store)
{
    sbistore_format(store, SECTORS, HARTS, PAGES, 1u << draw(3));
    return run(store);
}

static uint32_t do_suspend(struct sbistore *store, const struct model *m)
{
    sbistore_suspend(store, PAGES, m->hart, m->address, m->opaque);
    return run(store);
}

static uint32_t do_load(struct sbistore *store)
{
    sbistore_load(store, PAGES);
    return run(store);
}

static uint32_t do_command(struct sbistore *store, uint32_t kind, uint32_t one, uint32_t other)
{
    sbistore_command(store, kind, one, other);
    return run(store);
}

/* The state after a command, or the code by which the table refuses it. */
static uint32_t after(struct model *m, uint32_t kind, uint32_t one, uint32_t other)
{
    switch (kind) {
    case SBISTORE_SLOT:
        if (one > 3)
            return 9;
        m->slot = one;
        m->on_trial = m->fallback = m->left = 0;
        return 0;
    case SBISTORE_RESET:
        m->reason = one != 0;
        return 0;
    case SBISTORE_CONSUME:
    case SBISTORE_DISCARD:
        if (!m->has_image)
            return 8;
        m->has_image = 0;
        return 0;
    case SBISTORE_TRIES:
        if (one > 3)
            return 9;
        if (other < 1 || other > 7)
            return 19;
        if (!m->on_trial)
            m->fallback = m->slot;
        m->slot = one;
        m->on_trial = 1;
        m->left = other;
        return 0;
    case SBISTORE_GOOD:
        if (!m->on_trial)
            return 20;
        m->on_trial = m->fallback = m->left = 0;
        return 0;
    default:
        if (!m->on_trial)
            return 20;
        if (m->left > 0) {
            m->left--;
        } else {
            m->slot = m->fallback;
            m->on_trial = m->fallback = m->left = 0;
        }
        return 0;
    }
}

static int is(struct sbistore *store, const struct model *m)
{
    struct sbistore_state s;
    return sbistore_look(store, &s) == 0 && s.slot == m->slot && s.reason == m->reason && s.on_trial == m->on_trial
        && s.fallback == m->fallback && s.left == m->left && s.has_image == m->has_image && s.next == m->next
        && s.image_serial == (m->has_image ? m->serial : 0) && s.image_address == (m->has_image ? m->address : 0)
        && s.image_opaque == (m->has_image ? m->opaque : 0) && s.image_hart == (m->has_image ? m->hart : 0) && s.padding == 0;
}

/* Whether the image that stands loads as that memory; and where none stands, whether that is told. */
static int loads_as(struct sbistore *store, const struct model *m)
{
    memset(pages, 0xa5, sizeof pages);
    device_cut_at(-1);
    uint32_t code = do_load(store);
    if (!m->has_image)
        return code == SBISTORE_NO_IMAGE && device_calls() == 0;
    loads++;
    return code == SBISTORE_OK && device_calls() == 2 * PAGES && memcmp(pages, m->memory, sizeof pages) == 0 && is(store, m);
}

static void expect(int holds, const char *what)
{
    if (!holds) {
        wrong++;
        if (wrong < 20)
            printf("wrong: %s\n", what);
    }
}

/* The selected record as a firmware of version 1 has it, which keeps no trial (docs/STORE.md, "Record"). */
static void age(void)
{
    uint8_t *record = device_sector(2 + device_sector(1)[0] % 2);
    record[0] = 1;
    memset(record + 72, 0, 12);
    device_settle();
}

/* A cut within an open, of a record of version 1 in one of three, and then one that goes through. */
static void cut_open(struct model *now)
{
    struct sbistore store = {0};
    if (!now->on_trial && draw(3) == 0) {
        age();
        renewals++;
    }
    device_cut_at((long)draw(9));
    uint32_t code = do_open(&store);
    expect(code == SBISTORE_OK || code == SBISTORE_DEVICE, "an open that was cut answers 0 or 5");
    expect(code != SBISTORE_OK || is(&store, now), "an open that went well finds the state");
    device_crash((enum fill)draw(FILLS));
    cuts++;
}

/* One command, cut or made to fail at a call that is drawn, and what the next open finds. */
static void cut_command(struct model *now, uint32_t kind, uint32_t one, uint32_t other)
{
    static struct model then;
    struct sbistore store = {0};
    then = *now;
    expect(do_open(&store) == SBISTORE_OK && is(&store, now), "an open finds the state");
    expect(device_sector(2 + device_sector(1)[0] % 2)[0] == 2, "the selected record is of version 2");
    uint32_t refused = after(&then, kind, one, other);
    long call = (long)draw(6);
    int fails = draw(4) == 0;
    if (fails)
        device_fail_at(call);
    else
        device_cut_at(call);
    uint32_t code = do_command(&store, kind, one, other);
    commands[kind]++;
    if (refused) {
        expect(code == refused && device_calls() == 0, "the table's refusal, before any call");
        then = *now;
    } else {
        expect(code == (call < 2 ? SBISTORE_DEVICE : call < 4 ? SBISTORE_DOWN : SBISTORE_OK), "5 before the gate, 6 at it, else 0");
        expect(device_calls() == (call < 4 ? call + 1 : 4), "a commit is four calls");
        expect(is(&store, code == SBISTORE_OK ? &then : now), "the state of the open store");
        expect(store.receipts == (code == SBISTORE_OK), "the receipt");
    }
    if (code == SBISTORE_DOWN)
        expect(do_command(&store, SBISTORE_SLOT, 1, 0) == SBISTORE_DOWN, "6 until the next open");
    if (code == SBISTORE_OK && kind == SBISTORE_RESET)
        expect(do_command(&store, SBISTORE_SLOT, 1, 0) == SBISTORE_OVER, "7 after a reset");
    device_crash((enum fill)draw(FILLS));
    fails ? failures++ : cuts++;
    struct sbistore next = {0};
    expect(do_open(&next) == SBISTORE_OK, "an open after the cut");
    expect(is(&next, &then) || (code != SBISTORE_OK && is(&next, now)), "the state before or the state after");
    expect(code != SBISTORE_DEVICE || is(&next, now), "after 5 the state before");
    if (is(&next, &then))
        *now = then;
    if (draw(8) == 0)
        expect(loads_as(&next, now), "an image stays its memory");
}

/* The state after a suspension of a memory that is drawn, which is left in the pages. */
static void suspended(struct model *m)
{
    for (unsigned p = 0; p < PAGES; p++) {
        memset(m->memory[p], (int)draw(3) * 0x7f, SBISTORE_PAGE);
        for (unsigned i = 0; i < 16; i++)
            m->memory[p][draw(SBISTORE_PAGE)] = (uint8_t)draw(256);
    }
    m->has_image = 1;
    m->serial = m->next++;
    m->hart = draw(HARTS);
    m->address = 0x80000000u + 4 * draw(PAGES * 1024);
    m->opaque = (uint64_t)draw(1u << 30) << 32 | draw(1u << 30);
    memcpy(pages, m->memory, sizeof pages);
}

/* A suspension, cut or made to fail at a call that is drawn, and what the next open finds and loads. */
static void cut_suspend(struct model *now)
{
    static struct model then;
    struct sbistore store = {0}, next = {0};
    expect(do_open(&store) == SBISTORE_OK && is(&store, now), "an open finds the state");
    then = *now;
    suspended(&then);
    long call = (long)draw(2 * PAGES + 7);
    int fails = draw(4) == 0;
    if (fails)
        device_fail_at(call);
    else
        device_cut_at(call);
    uint32_t code = do_suspend(&store, &then);
    suspensions++;
    expect(code == (call < 2 * PAGES + 3 ? SBISTORE_DEVICE : call < 2 * PAGES + 5 ? SBISTORE_DOWN : SBISTORE_OK),
           "a suspension answers 5 before the gate, 6 at it, else 0");
    expect(device_calls() == (call < 2 * PAGES + 5 ? call + 1 : 2 * PAGES + 5), "two calls a page, a sync and a commit");
    expect(is(&store, code == SBISTORE_OK ? &then : now), "the state of the open store");
    if (code == SBISTORE_OK)
        expect(do_command(&store, SBISTORE_SLOT, 1, 0) == SBISTORE_OVER, "7 after a suspension");
    device_crash((enum fill)draw(FILLS));
    fails ? failures++ : cuts++;
    expect(do_open(&next) == SBISTORE_OK, "an open after the cut");
    int after_it = is(&next, &then);
    expect(after_it || (code != SBISTORE_OK && is(&next, now)), "the state before or the state after");
    expect(code != SBISTORE_DEVICE || !after_it, "after 5 the state before");
    if (after_it)
        *now = then;
    expect(loads_as(&next, now), "an image is its memory");
}

/* A load that fails at a call that is drawn, or of an image of which a byte is another. */
static void cut_load(const struct model *now)
{
    struct sbistore store = {0};
    if (!now->has_image)
        return;
    expect(do_open(&store) == SBISTORE_OK && is(&store, now), "an open finds the state");
    long call = (long)draw(2 * PAGES);
    device_fail_at(call);
    expect(do_load(&store) == SBISTORE_DEVICE && device_calls() == call + 1, "a load that failed");
    device_fail_at(-1);
    /* The area stands in bytes 32 to 36 of the record; the header of its first place is sector 0 of it. */
    unsigned area = device_sector(2 + device_sector(1)[0] % 2)[32];
    uint8_t *head = device_sector(8 + area * 9 * PAGES);
    unsigned at = draw(512);
    head[at] ^= 0x80;
    expect(do_load(&store) == SBISTORE_BAD_IMAGE && is(&store, now), "a header that is another");
    head[at] ^= 0x80;
    expect(loads_as(&store, now), "an image stays");
}

/* A format, cut at a call that is drawn, on a device of zeros; and one that goes through. */
static void cut_format(struct model *now)
{
    static struct model formatted;
    struct sbistore store = {0};
    device_blank();
    device_cut_at((long)draw(7));
    uint32_t code = do_format(&store);
    expect(code == SBISTORE_OK || code == SBISTORE_DEVICE, "a format that was cut answers 0 or 5");
    device_crash((enum fill)draw(FILLS));
    cuts++;
    formats++;
    uint32_t again = do_format(&store);
    expect(again == SBISTORE_OK || again == SBISTORE_ALREADY, "a format after the cut");
    expect(code != SBISTORE_OK || again == SBISTORE_ALREADY, "what was formatted has the mark");
    expect(do_open(&store) == SBISTORE_OK && is(&store, &formatted), "a formatted device");
    device_crash(OLD);
    *now = formatted;
}

static void check_answers(void)
{
    struct sbistore store = {0};
    struct sbistore_state state;
    device_blank();
    expect(sbistore_look(&store, &state) == SBISTORE_NOT_OPEN, "no look before an open");
    expect(do_command(&store, SBISTORE_SLOT, 1, 0) == SBISTORE_NOT_OPEN, "no command before an open");
    expect(do_open(&store) == SBISTORE_NOT_FORMATTED, "a blank device");
    sbistore_open(&store, 0);
    expect(run(&store) == SBISTORE_BAD_SHAPE, "a device without sectors");
    sbistore_format(&store, SECTORS, 9, 1, 1);
    expect(run(&store) == SBISTORE_BAD_SHAPE, "a board of nine harts");
    sbistore_format(&store, 25, 1, 1, 1);
    expect(run(&store) == SBISTORE_BAD_SHAPE, "a device that is too small");
    expect(do_format(&store) == SBISTORE_OK, "a format");
    expect(do_format(&store) == SBISTORE_ALREADY, "a second format");
    expect(do_open(&store) == SBISTORE_OK, "an open");
    sbistore_load(&store, PAGES + 1);
    expect(run(&store) == SBISTORE_BAD_SHAPE, "a load into another memory");
    sbistore_suspend(&store, PAGES - 1, 0, 0x80000000u, 0);
    expect(run(&store) == SBISTORE_BAD_SHAPE, "a suspension of another memory");
    sbistore_suspend(&store, PAGES, HARTS, 0x80000000u, 0);
    expect(run(&store) == SBISTORE_BAD_SHAPE, "a hart that the board has not");
    sbistore_suspend(&store, PAGES, 0, 0x80000002u, 0);
    expect(run(&store) == SBISTORE_BAD_SHAPE, "an address that is no multiple of 4");
    expect(do_load(&store) == SBISTORE_NO_IMAGE, "no image");
    expect(do_command(&store, 8, 0, 0) == SBISTORE_NO_COMMAND, "no such command");
    for (uint32_t n = 1; n <= 5000; n++)
        expect(do_command(&store, SBISTORE_SLOT, n % 4, 0) == SBISTORE_OK && store.receipts == n, "5,000 commands in one life");
    device_sector(2 + device_sector(1)[0] % 2)[4] = 9;
    expect(do_open(&store) == SBISTORE_BAD_RECORD, "a record out of its form");
}

int main(int count, char **words)
{
    unsigned long wanted = count > 1 ? strtoul(words[1], NULL, 10) : 100000;
    static struct model now;
    check_answers();
    cut_format(&now);
    while (cuts < wanted) {
        uint32_t kind = 1 + draw(7);
        uint32_t one = draw(10) == 0 ? 4 + draw(9) : draw(4);
        uint32_t other = draw(10) == 0 ? 8 * draw(2) : 1 + draw(7);
        if (draw(50) == 0)
            cut_format(&now);
        cut_open(&now);
        cut_command(&now, kind, one, other);
        if (draw(8) == 0)
            cut_suspend(&now);
        if (draw(16) == 0)
            cut_load(&now);
    }
    printf("state %lu bytes\n", (unsigned long)sizeof(struct sbistore));
    printf("commands slot %lu reset %lu consume %lu discard %lu tries %lu good %lu attempt %lu\n", commands[1], commands[2], commands[3],
           commands[4], commands[5], commands[6], commands[7]);
    printf("suspensions %lu loads %lu\n", suspensions, loads);
    printf("formats %lu renewals %lu failed calls %lu\n", formats, renewals, failures);
    printf("cuts %lu wrong %lu\n", cuts, wrong);
    return wrong != 0;
}
