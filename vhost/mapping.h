/*
 * mapping: a queue's own mapping of the guest's memory, the log of the pages that are written to, and what becomes of memory that
 * the front end cuts.
 */
#ifndef MAPPING_H
#define MAPPING_H

#include <signal.h>
#include <stdatomic.h>
#include <stdbool.h>
#include <stdint.h>

#include "kalyubos.h"
#include "memory.h"

/* The front end's log: bit p % 8 of byte p / 8 is set where page p is written to. Who last has a share of it unmaps it. */
struct page_log {
    uint8_t *bits;
    uint64_t len;
    atomic_uint shares;
};

/* Maps a log that lies in a file, which stays the caller's, in the place of another: NULL where it is done, else why not. */
const char *page_log_map(struct page_log **log, int file, uint64_t len, uint64_t offset);
/* Gives back a share of a log, or of none. */
void page_log_drop(struct page_log *log);

/*
 * The byte of guest-physical address g lies at base + g. Regions that touch are one region, as the library asks. No other queue's
 * words are the same, so each queue is a guest of the library for itself.
 *
 * While pages are logged the library sets a bit in `pages` for each that it writes to, as kalyubos_guest_keep_pages has it, and
 * mapping_carry brings them into the log. mapping_mark marks those of the disk's bytes.
 */
struct mapping {
    uint8_t *all, *base;
    struct memory memory; /* a copy, whose files aren't owned */
    struct page_log *log; /* NULL where nothing is logged */
    uint64_t *pages;      /* from the first region's base to the last one's end; NULL where nothing is logged */
    uint64_t len, pages_len; /* in bytes */
    volatile sig_atomic_t is_cut; /* the front end cut its memory or its log, and other memory lies there now */
    unsigned regions_len;
    struct kalyubos_region regions[KALYUBOS_REGIONS];
};

/* Reserves addresses for all regions, and takes a share of a log, or of none. NULL where it is done, else why not. */
const char *mapping_open(struct mapping *mapping, const struct memory *memory, struct page_log *log);
/* Puts the guest's memory there. */
const char *mapping_guest(struct mapping *mapping);
/* Puts a copy of the guest's memory in its place: what is read is the guest's, and what is written from now on is seen by nobody. */
bool mapping_part(struct mapping *mapping);
/* Marks the pages of these bytes. */
void mapping_mark(const struct mapping *mapping, uint64_t guest, uint64_t len);
/* Marks the pages that the library wrote to since the last time, between two of its calls. It looks at each page's bit. */
void mapping_carry(struct mapping *mapping);
/* Has this thread's faults in the mapping handled. */
void mapping_watch(struct mapping *mapping);
void mapping_close(struct mapping *mapping);
/* Installs the handler of faults, once for the program. */
void mapping_handle_faults(void);

#endif
