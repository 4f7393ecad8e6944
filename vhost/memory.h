/* memory: the guest's memory as the front end told it: a table of regions that are judged. */
#ifndef MEMORY_H
#define MEMORY_H

#include <stdbool.h>
#include <stdint.h>

enum { PAGE = 4096, SLOTS = 32 };

/* A region: guest-physical addresses, the front end's own, and where its bytes lie in a file. */
struct region {
    uint64_t guest, size, user, offset;
    int file;
};

/* The table, by guest-physical address. It owns the files. */
struct memory {
    unsigned len;
    struct region regions[SLOTS];
};

/* Adds a region and takes its file: NULL where it is done, else why not, and the file is closed. */
const char *memory_add(struct memory *memory, struct region region);
/* Takes out the region that is the same in address, size and front end's address. */
const char *memory_remove(struct memory *memory, const struct region *region);
void memory_clear(struct memory *memory);
/* The guest-physical address of `len` bytes from one of the front end's own addresses on, where one region holds them. */
bool memory_find(const struct memory *memory, uint64_t user, uint64_t len, uint64_t *guest);
/* Behind the last region. */
uint64_t memory_end(const struct memory *memory);

#endif
