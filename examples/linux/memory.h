/* A guest's memory: regions in ascending order, with a gap between each two. */
#ifndef MEMORY_H
#define MEMORY_H

#include <stddef.h>
#include <stdint.h>

enum { MEMORY_REGIONS = 8 };

struct region {
    uint64_t base;
    size_t len;
    uint8_t *bytes;
};

struct memory {
    size_t count;
    struct region regions[MEMORY_REGIONS];
};

/* Where the `len` bytes from an address on lie; NULL where no region holds them all. */
static inline uint8_t *memory_at(const struct memory *memory, uint64_t addr, uint64_t len)
{
    for (const struct region *region = memory->regions; region < memory->regions + memory->count; region++) {
        uint64_t offset = addr - region->base;
        if (addr >= region->base && offset <= region->len && len <= region->len - offset)
            return region->bytes + offset;
    }
    return NULL;
}

#endif
