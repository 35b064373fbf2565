/* sbistore.h: a small durable state, and the memory of a suspended board, on a device of 512-byte sectors, which no power cut undoes or
 * leaves half done.
 *
 * The library makes no call of its own: it takes no memory, starts no thread and calls nothing back. It says which call of the device
 * comes next, and you make it:
 *
 *     static uint32_t run(struct sbistore *store)
 *     {
 *         uint8_t sector[SBISTORE_SECTOR];
 *         uint32_t failed = 0;
 *         for (;;)
 *             switch (sbistore_next(store, failed, sector)) {
 *             case SBISTORE_READ:  failed = my_read(store->number, sector);  break;
 *             case SBISTORE_WRITE: failed = my_write(store->number, sector); break;
 *             case SBISTORE_SYNC:  failed = my_sync();                       break;
 *             case SBISTORE_READ_PAGE:
 *                 failed = my_read_eight(store->number, pages[store->page]);
 *                 break;
 *             case SBISTORE_WRITE_PAGE:
 *                 failed = my_write_eight(store->number, pages[store->page]);
 *                 break;
 *             default:             return (uint32_t)store->number;
 *             }
 *     }
 *
 * The last two are asked for by sbistore_load and sbistore_suspend alone, over the 4,096-byte pages of your memory: who calls neither
 * leaves them out. The next call is given the SECTOR that was read, and may be given any bytes after a write and a sync. A call that went
 * wrong is told as any other number than 0, and is not made again by you: the loop ends with the code.
 *
 * What it promises holds for a caller that makes each call once, in the order that it is asked for, tells how it ended, and lets
 * nothing else write the device; and for a device that does what docs/DISK.md says: until a sync has gone well a crash may leave any
 * bytes in the sectors that were written since the last one, and nowhere else. docs/STORE.md has the form of the disk.
 *
 * At power-on: sbistore_open, run. For each command: sbistore_command, run. A new device once: sbistore_format, run. One state is used by
 * one thread at a time. All numbers are in the byte order of the machine, and on the device little-endian.
 *
 * A bootloader with boots on trial: open; look; where on_trial is 1 the command SBISTORE_ATTEMPT, and look again; boot the slot. The
 * updater: open, SBISTORE_TRIES. The system that came up well: open, SBISTORE_GOOD. c/slot.c does all that.
 *
 * Where the device writes blocks that are larger than a sector, and a cut may tear one, give each sector a block of its own: my_write fills
 * block store->number whole, and my_read reads it (docs/PORTING.md, "From C").
 */
#ifndef SBISTORE_H
#define SBISTORE_H

#include <stddef.h>
#include <stdint.h>

#ifdef __cplusplus
extern "C" {
#endif

#define SBISTORE_SECTOR 512

/* The codes. After 0 a crash leaves the durable state after the command. After 6 it leaves that one or the one before it, which the next
 * open finds out. After each other code it leaves the one before. After 5, and after a refusal of the table (8, 9, 19, 20), a command may
 * be given at once, the same one too. After 6, 7, 10 and 102 open again. */
enum {
    SBISTORE_OK = 0,
    SBISTORE_NOT_FORMATTED = 1,  /* open: the device does not begin with the mark */
    SBISTORE_ALREADY = 2,        /* format: the device begins with the mark, and is left as it was: write zeros into sector 0 first */
    SBISTORE_BAD_SHAPE = 3,      /* a number of the board is out of its range, or the device is too small or of no board */
    SBISTORE_BAD_RECORD = 4,     /* open: the selected record is not in its form */
    SBISTORE_DEVICE = 5,         /* a call of the device failed; the state is as it was. Of a format see docs/STORE.md */
    SBISTORE_DOWN = 6,           /* the gate could not be written: a command is in doubt. Every later one answers 6 until an open */
    SBISTORE_OVER = 7,           /* a reset or a suspension has ended this life: open again */
    SBISTORE_NO_IMAGE = 8,       /* consume, discard or load without an image */
    SBISTORE_BAD_SLOT = 9,       /* a slot above 3 */
    SBISTORE_FULL = 10,          /* 2^64 - 1 commands of this life were acknowledged */
    SBISTORE_SERIALS = 12,       /* suspend: no serial is left */
    SBISTORE_BAD_IMAGE = 13,     /* load: the image reads as no memory; your pages are of no use, the image stays */
    SBISTORE_BAD_TRIES = 19,     /* a trial has 1 to 7 boots */
    SBISTORE_NO_TRIAL = 20,      /* good or attempt where no trial stands */
    SBISTORE_NOT_OPEN = 100,     /* no open has gone well in this state, or a format was begun since */
    SBISTORE_NO_COMMAND = 101,   /* no such command */
    SBISTORE_SPOILT = 102        /* the state is not as a call of the library left it */
};

/* The requests. */
enum { SBISTORE_DONE, SBISTORE_READ, SBISTORE_WRITE, SBISTORE_SYNC, SBISTORE_READ_PAGE, SBISTORE_WRITE_PAGE };

#define SBISTORE_PAGE 4096

/* The commands, and what they carry. Each but a reset may be followed by others. */
enum {
    SBISTORE_SLOT = 1,    /* one: the boot slot, 0 to 3. A trial is dropped */
    SBISTORE_RESET = 2,   /* one: the reason, 0 none, else a system failure. It ends the life */
    SBISTORE_CONSUME = 3, /* the image is dropped, since its hart is resumed */
    SBISTORE_DISCARD = 4, /* the image is dropped unused */
    SBISTORE_TRIES = 5,   /* one: the boot slot, 0 to 3; other: for so many boots, 1 to 7. It falls back to the slot that stood before, and
                           * where a trial runs already, to that one's fallback */
    SBISTORE_GOOD = 6,    /* the slot on trial is kept */
    SBISTORE_ATTEMPT = 7  /* a boot uses up one of the trial's, or falls back where none is left: before each boot, where a trial stands */
};

/* The library's state. Zero it before its first use (memset), and read the first three fields alone. It may be moved between calls. */
struct sbistore {
    uint64_t number;   /* of a request the sector, or the first of eight, from 0; after SBISTORE_DONE the code */
    uint64_t receipts; /* how many commands were acknowledged since the open */
    uint64_t page;     /* of SBISTORE_READ_PAGE and SBISTORE_WRITE_PAGE the page of your memory, from 0 */
    uint64_t hidden[10];
    uint8_t records[2 * SBISTORE_SECTOR];
};

/* The durable state (docs/DURABLE.md). */
struct sbistore_state {
    uint64_t next;          /* the serial of the next suspension */
    uint32_t slot;          /* the boot slot, 0 to 3 */
    uint32_t reason;        /* of the last reset: 0 none, 1 system failure */
    uint32_t on_trial;      /* 1 where the slot is on trial, and then */
    uint32_t fallback;      /*   the slot to fall back to, 0 to 3, and */
    uint32_t left;          /*   how many boots are left, 0 to 7: with 0 the next SBISTORE_ATTEMPT falls back */
    uint32_t has_image;     /* 1 where an image stands, and then its */
    uint64_t image_serial;  /*   serial, */
    uint64_t image_address; /*   the address at which it is resumed, */
    uint64_t image_opaque;  /*   the value that is then in a1, and */
    uint32_t image_hart;    /*   the hart, 0 to 7 */
    uint32_t padding;       /* 0 */
};

/* Begins a format of a device of so many SECTORS, for a board of 1 to 8 HARTS, 1 to 256 PAGES of 4,096 bytes and 1 to 4 LANES (1, 1, 1
 * where no memory is suspended: 26 sectors; else docs/STORE.md, "The disk", has the number). What the device holds does not matter, but for
 * the mark of a board in its first 8 bytes. Codes 0, 2, 3, 5. After 0 the slot is 0, with no reason, no trial and no image. After 5, or a
 * cut, format it again; where that answers 2 and an open 3, write zeros into sector 0 before. Nothing is then open. */
void sbistore_format(struct sbistore *store, size_t sectors, uint64_t harts, uint64_t pages, uint64_t lanes);

/* Begins an open of a device of so many SECTORS, which may be more than the format was told, and the board needs. Codes 0, 1, 3, 4, 5. It
 * settles what the last life left in doubt, and of a device that an older firmware wrote it writes the record anew. */
void sbistore_open(struct sbistore *store, size_t sectors);

/* Begins the command of that KIND. Codes 0, 5 to 10, 19, 20, 100, 101: 6, 7, 10, 9, 19, 8 and 20 before any call of the device. */
void sbistore_command(struct sbistore *store, uint32_t kind, uint32_t one, uint32_t other);

/* Begins a suspension: the PAGES of your memory go to the area that no image uses, and a record that names them is committed. The command
 * is then acknowledged, and the life over. HART (below the board's), ADDRESS (a multiple of 4 from 0x80000000 on, within PAGES) and OPAQUE
 * are kept beside the image. Your memory may not change before SBISTORE_DONE. 2 * PAGES + 5 calls of the device. Codes 0, 3 (PAGES are
 * not the board's, or it has no such hart or address), 5, 6, 7, 10, 12, 100: 6, 7, 10, 3 and 12 before any call. After 5, as at each
 * moment before the commit, a crash leaves the state before, with its image, byte for byte. */
void sbistore_suspend(struct sbistore *store, uint64_t pages, uint32_t hart, uint64_t address, uint64_t opaque);

/* Begins a load of the image that stands into your PAGES: two calls of the device for each, in the order in which they stand there, and no
 * write. Codes 0, 3 (PAGES are not the board's), 5, 6, 8, 13, 100: 6, 3 and 8 before any call. After 0 your pages are the memory that was
 * suspended, byte for byte; after 5 and 13 they are of no use. The image stays: SBISTORE_CONSUME before its hart is resumed. */
void sbistore_load(struct sbistore *store, uint64_t pages);

/* Tells how the last request ended (FAILED is 0 where it went well; the first call after a begin has nothing to tell), and answers the
 * next one: SBISTORE_READ, sector store->number into SECTOR; SBISTORE_WRITE, SECTOR to sector store->number; SBISTORE_SYNC, make durable
 * what was written; SBISTORE_READ_PAGE, the 8 sectors from store->number on into page store->page of your memory; SBISTORE_WRITE_PAGE, that
 * page to those sectors; SBISTORE_DONE, store->number is the code. */
uint32_t sbistore_next(struct sbistore *store, uint32_t failed, uint8_t sector[SBISTORE_SECTOR]);

/* The durable state of the open store, without a command in doubt: 0, or 100 where none is open, and STATE is then left as it was. No
 * call of the device is made. */
uint32_t sbistore_look(const struct sbistore *store, struct sbistore_state *state);

#ifdef __cplusplus
}
#endif

#endif
