#include "device.h"

#include <string.h>

/* What a read gives, what a cut leaves, and what was written last: of a write that failed a read gives the bytes before. */
static uint8_t now[SECTORS][512], durable[SECTORS][512], last[SECTORS][512];
static int dirty[SECTORS], dead;
static long cut = -1, fail = -1, calls;
static uint64_t seed = 1;

uint32_t draw(uint32_t n)
{
    seed = seed * 6364136223846793005u + 1442695040888963407u;
    return (uint32_t)(seed >> 33) % n;
}

void device_settle(void)
{
    memcpy(durable, now, sizeof now);
    memcpy(last, now, sizeof now);
    memset(dirty, 0, sizeof dirty);
}

void device_blank(void)
{
    memset(now, 0, sizeof now);
    device_settle();
    dead = 0;
    cut = fail = -1;
}

void device_cut_at(long call)
{
    cut = call;
    calls = 0;
}

void device_fail_at(long call)
{
    fail = call;
    calls = 0;
}

int device_is_dead(void)
{
    return dead;
}

long device_calls(void)
{
    return calls;
}

uint8_t *device_sector(unsigned number)
{
    return now[number];
}

/* Whether this call fails, since power is cut in it or was before, or by itself. */
static uint32_t fails(void)
{
    long call = calls++;
    if (call == cut)
        dead = 1;
    return dead || call == fail;
}

static uint32_t read_some(uint64_t first, unsigned count, uint8_t *bytes)
{
    if (fails() || first + count > SECTORS)
        return 1;
    memcpy(bytes, now[first], 512 * count);
    return 0;
}

static uint32_t write_some(uint64_t first, unsigned count, const uint8_t *bytes)
{
    int was = dead;
    uint32_t failed = fails();
    if (was || first + count > SECTORS)
        return 1;
    for (unsigned i = 0; i < count; i++)
        dirty[first + i] = 1;
    memcpy(last[first], bytes, 512 * count);
    if (!failed)
        memcpy(now[first], bytes, 512 * count);
    return failed;
}

uint32_t device_read(uint64_t number, uint8_t *sector)
{
    return read_some(number, 1, sector);
}

uint32_t device_write(uint64_t number, const uint8_t *sector)
{
    return write_some(number, 1, sector);
}

uint32_t device_read_page(uint64_t first, uint8_t *page)
{
    return read_some(first, 8, page);
}

uint32_t device_write_page(uint64_t first, const uint8_t *page)
{
    return write_some(first, 8, page);
}

uint32_t device_sync(void)
{
    if (fails())
        return 1;
    device_settle();
    return 0;
}

static void tear(unsigned n, enum fill fill)
{
    uint8_t *bytes = durable[n];
    switch (fill) {
    case ZEROS: memset(bytes, 0, 512); break;
    case ONES: memset(bytes, 0xff, 512); break;
    case HALF: memcpy(bytes, last[n], 256); break;
    case OLD: break;
    case NEW: memcpy(bytes, last[n], 512); break;
    default:
        for (unsigned i = 0; i < 512; i++)
            bytes[i] = (uint8_t)draw(256);
    }
}

void device_crash(enum fill fill)
{
    for (unsigned n = 0; n < SECTORS; n++)
        if (dirty[n])
            tear(n, fill);
    memcpy(now, durable, sizeof now);
    device_settle();
    dead = 0;
    cut = fail = -1;
}
