/* memory: each number of a region is judged before any of it is mapped. */
#include "memory.h"

#include <string.h>
#include <sys/stat.h>
#include <unistd.h>

/* No guest's memory lies higher: addresses of this program are reserved up to there. */
static const uint64_t HIGHEST = (uint64_t)1 << 44;

static bool overlap(uint64_t one, uint64_t one_len, uint64_t other, uint64_t other_len)
{
    return one < other + other_len && other < one + one_len;
}

/* Why the numbers of a region aren't good by themselves, or NULL. */
static const char *judge_numbers(const struct region *region)
{
    if (region->size == 0)
        return "a region of memory has no bytes";
    if (region->guest % PAGE != 0 || region->size % PAGE != 0 || region->offset % PAGE != 0)
        return "a region of memory isn't aligned to pages of 4096 bytes";
    if (region->guest >= HIGHEST || region->size > HIGHEST - region->guest)
        return "a region of memory passes 16 TiB";
    if (region->user + region->size < region->user)
        return "a region of memory passes the front end's last address";
    if (region->offset > INT64_MAX || region->size > INT64_MAX - region->offset)
        return "a region of memory passes the longest file";
    return NULL;
}

/* Why a region's file isn't good, or NULL. A shorter file would end each access behind its end by a signal. */
static const char *judge_file(const struct region *region)
{
    struct stat stat;
    if (region->file < 0 || fstat(region->file, &stat) != 0)
        return "a region of memory has no file";
    if (!S_ISREG(stat.st_mode))
        return "a region of memory has a file that isn't a regular one";
    if ((uint64_t)stat.st_size < region->offset + region->size)
        return "a region of memory passes the end of its file";
    return NULL;
}

static const char *judge_place(const struct memory *memory, const struct region *region)
{
    if (memory->len == SLOTS)
        return "there are more than 32 regions of memory";
    for (unsigned i = 0; i < memory->len; i++) {
        const struct region *it = &memory->regions[i];
        if (overlap(it->guest, it->size, region->guest, region->size))
            return "two regions of memory share guest-physical addresses";
        if (overlap(it->user, it->size, region->user, region->size))
            return "two regions of memory share addresses of the front end";
    }
    return NULL;
}

const char *memory_add(struct memory *memory, struct region region)
{
    const char *why = judge_numbers(&region);
    why = why != NULL ? why : judge_file(&region);
    why = why != NULL ? why : judge_place(memory, &region);
    if (why != NULL) {
        if (region.file >= 0)
            close(region.file);
        return why;
    }
    unsigned at = memory->len++;
    for (; at > 0 && memory->regions[at - 1].guest > region.guest; at--)
        memory->regions[at] = memory->regions[at - 1];
    memory->regions[at] = region;
    return NULL;
}

const char *memory_remove(struct memory *memory, const struct region *region)
{
    for (unsigned i = 0; i < memory->len; i++) {
        const struct region *it = &memory->regions[i];
        if (it->guest != region->guest || it->size != region->size || it->user != region->user)
            continue;
        close(it->file);
        memory->len--;
        memmove(&memory->regions[i], &memory->regions[i + 1], (memory->len - i) * sizeof memory->regions[0]);
        return NULL;
    }
    return "a region of memory that is to be removed isn't there";
}

void memory_clear(struct memory *memory)
{
    for (unsigned i = 0; i < memory->len; i++)
        close(memory->regions[i].file);
    memory->len = 0;
}

bool memory_find(const struct memory *memory, uint64_t user, uint64_t len, uint64_t *guest)
{
    for (unsigned i = 0; i < memory->len; i++) {
        const struct region *it = &memory->regions[i];
        uint64_t at = user - it->user;
        if (user >= it->user && at < it->size && len <= it->size - at) {
            *guest = it->guest + at;
            return true;
        }
    }
    return false;
}

uint64_t memory_end(const struct memory *memory)
{
    const struct region *last = &memory->regions[memory->len - 1];
    return memory->len != 0 ? last->guest + last->size : 0;
}
