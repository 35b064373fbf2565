/* A boot slot on a plain file or a block device, which holds 26 sectors or more. All of it is there to be copied. With -DBLOCK=4096 each
 * sector lies in a block of that size of its own (docs/DISK.md, "Larger blocks").
 *
 *     ./slot FILE format       once
 *     ./slot FILE boot         at each power-on: tells the slot to boot
 *     ./slot FILE try 2 3      the updater: slot 2 for 3 boots, and back to this one if none of them does `good`
 *     ./slot FILE good         the system came up well: the slot is kept
 *
 * The status is the code of sbistore.h. */
#define _POSIX_C_SOURCE 200809L
#include "sbistore.h"

#include <fcntl.h>
#include <stdio.h>
#include <stdlib.h>
#include <string.h>
#include <unistd.h>

#ifndef BLOCK
#define BLOCK 512
#endif

/* Where the mark of a larger block 0 stands, which has its size. */
enum { SECTORS = 26, MARK = 20 };

static int device;

/* How many bytes of the sector stand before a mark: all where its block has none. */
static size_t before_mark(uint64_t number)
{
    return BLOCK > SBISTORE_SECTOR && number == 0 ? MARK : SBISTORE_SECTOR;
}

static uint32_t read_sector(uint64_t number, uint8_t *sector)
{
    uint8_t block[BLOCK];
    size_t head = before_mark(number);
    if (pread(device, block, BLOCK, (off_t)(number * BLOCK)) != BLOCK)
        return 1;
    memcpy(sector, block, head);
    if (head < SBISTORE_SECTOR)
        memcpy(sector + head, block + head + 4, SBISTORE_SECTOR - head);
    return 0;
}

static uint32_t write_sector(uint64_t number, const uint8_t *sector)
{
    uint8_t block[BLOCK] = {0};
    size_t head = before_mark(number);
    memcpy(block, sector, head);
    if (head < SBISTORE_SECTOR) {
        for (int i = 0; i < 4; i++)
            block[head + i] = (uint8_t)(BLOCK >> 8 * i);
        memcpy(block + head + 4, sector + head, SBISTORE_SECTOR - head);
    }
    return pwrite(device, block, BLOCK, (off_t)(number * BLOCK)) != BLOCK;
}

static uint32_t run(struct sbistore *store)
{
    uint8_t sector[SBISTORE_SECTOR];
    uint32_t failed = 0;
    for (;;)
        switch (sbistore_next(store, failed, sector)) {
        case SBISTORE_READ: failed = read_sector(store->number, sector); break;
        case SBISTORE_WRITE: failed = write_sector(store->number, sector); break;
        case SBISTORE_SYNC: failed = fdatasync(device) != 0; break;
        default: return (uint32_t)store->number;
        }
}

static uint32_t command(struct sbistore *store, uint32_t kind, uint32_t one, uint32_t other)
{
    sbistore_command(store, kind, one, other);
    return run(store);
}

/* What a bootloader does: a slot on trial uses up a boot, and falls back where none is left. */
static uint32_t boot(struct sbistore *store)
{
    struct sbistore_state state;
    uint32_t code = sbistore_look(store, &state);
    if (code == SBISTORE_OK && state.on_trial)
        code = command(store, SBISTORE_ATTEMPT, 0, 0);
    if (code == SBISTORE_OK)
        code = sbistore_look(store, &state);
    if (code == SBISTORE_OK)
        printf("slot %u%s\n", (unsigned)state.slot, state.on_trial ? ", on trial" : "");
    return code;
}

int main(int count, char **words)
{
    struct sbistore store = {0};
    const char *word = count > 2 ? words[2] : "";
    uint32_t code;
    if (count < 3 || (device = open(words[1], O_RDWR)) < 0)
        return SBISTORE_DEVICE;
    if (strcmp(word, "format") == 0) {
        sbistore_format(&store, SECTORS, 1, 1, 1);
        return (int)run(&store);
    }
    sbistore_open(&store, SECTORS);
    if ((code = run(&store)) != SBISTORE_OK)
        return (int)code;
    if (strcmp(word, "boot") == 0)
        return (int)boot(&store);
    if (strcmp(word, "try") == 0 && count > 4)
        return (int)command(&store, SBISTORE_TRIES, (uint32_t)atoi(words[3]), (uint32_t)atoi(words[4]));
    if (strcmp(word, "good") == 0)
        return (int)command(&store, SBISTORE_GOOD, 0, 0);
    return SBISTORE_NO_COMMAND;
}
