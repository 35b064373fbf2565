/* A device in memory whose writes tear: power can be cut at any call, and the sectors that were written since the last sync then hold
 * whatever is drawn. */
#ifndef DEVICE_H
#define DEVICE_H

#include <stdint.h>

/* Of a board of 8 pages: eight sectors, and two areas of 8 places. */
enum { PAGES = 8, SECTORS = 8 + 2 * 9 * PAGES };

/* What a cut leaves of a sector that was written since the last sync. */
enum fill { ZEROS, ONES, HALF, OLD, NEW, NOISE, FILLS };

/* The device holds zeros, all durable. */
void device_blank(void);

/* Power is cut within the call of that number from now on, from 0; never where it is negative. That call and all later ones fail. */
void device_cut_at(long call);

/* A failure of one call, from 0; never where it is negative. */
void device_fail_at(long call);

/* Power is gone, and back. */
void device_crash(enum fill fill);

/* Whether power was cut. */
int device_is_dead(void);

/* How many calls were made since the cut was set. */
long device_calls(void);

/* 0 where it went well. */
uint32_t device_read(uint64_t number, uint8_t *sector);
uint32_t device_write(uint64_t number, const uint8_t *sector);
uint32_t device_sync(void);

/* The 8 sectors from that number on, by one call. */
uint32_t device_read_page(uint64_t first, uint8_t *page);
uint32_t device_write_page(uint64_t first, const uint8_t *page);

/* The sector as a read gives it, to look at or to change. */
uint8_t *device_sector(unsigned number);

/* What was written is durable. */
void device_settle(void);

/* A number below N, from a fixed seed. */
uint32_t draw(uint32_t n);

#endif
