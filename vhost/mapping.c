/*
 * mapping: reserves, maps, and handles the faults of the guest's memory. A fault in memory that was cut puts unshared memory over
 * the whole region and returns. The call of the library that met it goes on, over bytes that are others than before, as any guest
 * may write them; its thread then ends the front end.
 */
#include "mapping.h"

#include <errno.h>
#include <stdlib.h>
#include <string.h>
#include <sys/mman.h>
#include <sys/stat.h>

static const uint64_t HUGE_PAGE = (uint64_t)1 << 30; /* a mapping of huge pages is aligned as they are */

/* A word of bits of pages; and a block of words, a line of the processor's cache, which is looked at as one. */
enum { WORD_PAGES = 64, BLOCK_WORDS = 8, BLOCK_PAGES = BLOCK_WORDS * WORD_PAGES };

static _Thread_local struct mapping *watched;

/* ---- the log */

const char *page_log_map(struct page_log **log, int file, uint64_t len, uint64_t offset)
{
    struct stat stat;
    if (file < 0 || fstat(file, &stat) != 0 || !S_ISREG(stat.st_mode))
        return "the log of pages isn't a regular file";
    if (len == 0 || len > INT64_MAX || offset > INT64_MAX - len || offset % PAGE != 0)
        return "the log of pages has no bytes, or no place in a file";
    if ((uint64_t)stat.st_size < offset + len)
        return "the log of pages passes the end of its file";
    struct page_log *made = malloc(sizeof *made);
    uint8_t *bits = made != NULL ? mmap(NULL, len, PROT_READ | PROT_WRITE, MAP_SHARED, file, (off_t)offset) : MAP_FAILED;
    if (bits == MAP_FAILED) {
        free(made);
        return strerror(errno);
    }
    made->bits = bits;
    made->len = len;
    atomic_init(&made->shares, 1);
    page_log_drop(*log);
    *log = made;
    return NULL;
}

void page_log_drop(struct page_log *log)
{
    if (log == NULL || atomic_fetch_sub(&log->shares, 1) != 1)
        return;
    munmap(log->bits, log->len);
    free(log);
}

/* ---- mapping */

/* Joins regions that touch. */
static const char *join(struct mapping *mapping)
{
    for (unsigned i = 0; i < mapping->memory.len; i++) {
        const struct region *it = &mapping->memory.regions[i];
        struct kalyubos_region *last = &mapping->regions[mapping->regions_len > 0 ? mapping->regions_len - 1 : 0];
        if (mapping->regions_len > 0 && last->base + last->len == it->guest)
            last->len += it->size;
        else if (mapping->regions_len == KALYUBOS_REGIONS)
            return "more than 8 regions of memory don't touch another";
        else
            mapping->regions[mapping->regions_len++] = (struct kalyubos_region){ it->guest, it->size };
    }
    return mapping->regions_len > 0 ? NULL : "there is no memory";
}

static uint8_t *reserve(uint64_t len, uint8_t **all)
{
    uint8_t *at = mmap(NULL, len, PROT_NONE, MAP_PRIVATE | MAP_ANONYMOUS | MAP_NORESERVE, -1, 0);
    if (at == MAP_FAILED)
        return NULL;
    *all = at;
    return at + (HUGE_PAGE - (uintptr_t)at % HUGE_PAGE) % HUGE_PAGE;
}

/* A bit for each page, in whole blocks. A page of bits of which none is ever set takes no memory. */
static uint64_t *make_pages(struct mapping *mapping)
{
    const struct kalyubos_region *last = &mapping->regions[mapping->regions_len - 1];
    uint64_t count = (last->base + last->len - mapping->regions[0].base) / PAGE;
    mapping->pages_len = (count + BLOCK_PAGES - 1) / BLOCK_PAGES * (BLOCK_PAGES / 8);
    uint64_t *pages = mmap(NULL, mapping->pages_len, PROT_READ | PROT_WRITE, MAP_PRIVATE | MAP_ANONYMOUS | MAP_NORESERVE, -1, 0);
    return pages == MAP_FAILED ? NULL : pages;
}

const char *mapping_open(struct mapping *mapping, const struct memory *memory, struct page_log *log)
{
    memset(mapping, 0, sizeof *mapping);
    mapping->memory = *memory;
    const char *why = join(mapping);
    if (why != NULL)
        return why;
    if (log != NULL && memory_end(memory) / PAGE > log->len * 8)
        return "the log of pages is too short for the memory";
    if (log != NULL) {
        atomic_fetch_add(&log->shares, 1);
        mapping->log = log;
        mapping->pages = make_pages(mapping);
    }
    mapping->len = memory_end(memory) + HUGE_PAGE;
    mapping->base = reserve(mapping->len, &mapping->all);
    if (mapping->base == NULL || (log != NULL && mapping->pages == NULL)) {
        mapping_close(mapping);
        return "there are no addresses for the guest's memory";
    }
    return NULL;
}

static bool cover(uint8_t *at, uint64_t len)
{
    return mmap(at, len, PROT_READ | PROT_WRITE, MAP_PRIVATE | MAP_ANONYMOUS | MAP_NORESERVE | MAP_FIXED, -1, 0) != MAP_FAILED;
}

static bool map_files(uint8_t *base, const struct memory *memory, int sharing)
{
    for (unsigned i = 0; i < memory->len; i++) {
        const struct region *it = &memory->regions[i];
        if (mmap(base + it->guest, it->size, PROT_READ | PROT_WRITE, sharing | MAP_NORESERVE | MAP_FIXED, it->file,
                 (off_t)it->offset) == MAP_FAILED)
            return false;
    }
    return true;
}

const char *mapping_guest(struct mapping *mapping)
{
    bool is_mapped = map_files(mapping->base, &mapping->memory, MAP_SHARED);
    return is_mapped ? NULL : "a region of memory can't be mapped";
}

bool mapping_part(struct mapping *mapping)
{
    return map_files(mapping->base, &mapping->memory, MAP_PRIVATE);
}

void mapping_close(struct mapping *mapping)
{
    if (mapping->all != NULL)
        munmap(mapping->all, mapping->len);
    if (mapping->pages != NULL)
        munmap(mapping->pages, mapping->pages_len);
    page_log_drop(mapping->log);
    mapping->all = NULL;
    mapping->pages = NULL;
    mapping->log = NULL;
}

/* ---- marks */

static void mark_page(const struct mapping *mapping, uint64_t page)
{
    __atomic_fetch_or(&mapping->log->bits[page / 8], (uint8_t)(1 << page % 8), __ATOMIC_SEQ_CST);
}

void mapping_mark(const struct mapping *mapping, uint64_t guest, uint64_t len)
{
    if (mapping->log == NULL || len == 0)
        return;
    for (uint64_t page = guest / PAGE; page <= (guest + len - 1) / PAGE; page++)
        mark_page(mapping, page);
}

/* Carries a block's bits over, and clears them. */
static void carry_block(struct mapping *mapping, uint64_t at)
{
    for (uint64_t end = at + BLOCK_WORDS; at < end; at++) {
        uint64_t first = mapping->regions[0].base / PAGE + at * WORD_PAGES;
        for (uint64_t left = mapping->pages[at]; left != 0; left &= left - 1)
            mark_page(mapping, first + (uint64_t)__builtin_ctzll(left));
        mapping->pages[at] = 0;
    }
}

static bool has_any(const uint64_t block[BLOCK_WORDS])
{
    uint64_t any = 0;
    for (unsigned i = 0; i < BLOCK_WORDS; i++)
        any |= block[i];
    return any != 0;
}

void mapping_carry(struct mapping *mapping)
{
    for (unsigned i = 0; mapping->pages != NULL && i < mapping->regions_len; i++) {
        uint64_t from = (mapping->regions[i].base - mapping->regions[0].base) / PAGE;
        uint64_t to = from + mapping->regions[i].len / PAGE;
        for (uint64_t at = from / BLOCK_PAGES * BLOCK_WORDS; at * WORD_PAGES < to; at += BLOCK_WORDS)
            if (has_any(&mapping->pages[at]))
                carry_block(mapping, at);
    }
}

/* ---- faults */

void mapping_watch(struct mapping *mapping)
{
    watched = mapping;
}

/* An access behind the end of a file that was cut: puts unshared memory over the region, or over the log. */
static bool cover_cut(struct mapping *mapping, uint8_t *address)
{
    mapping->is_cut = 1;
    if (mapping->log != NULL && address >= mapping->log->bits && address < mapping->log->bits + mapping->log->len)
        return cover(mapping->log->bits, mapping->log->len);
    for (unsigned i = 0; i < mapping->memory.len; i++) {
        const struct region *it = &mapping->memory.regions[i];
        uint8_t *at = mapping->base + it->guest;
        if (address >= at && address < at + it->size)
            return cover(at, it->size);
    }
    return false;
}

static void handle_fault(int number, siginfo_t *info, void *context)
{
    int error = errno;
    (void)context;
    if (watched == NULL || !cover_cut(watched, info->si_addr))
        (void)signal(number, SIG_DFL); /* it comes again, and ends the program */
    errno = error;
}

void mapping_handle_faults(void)
{
    struct sigaction action = { .sa_sigaction = handle_fault, .sa_flags = SA_SIGINFO | SA_NODEFER };
    sigemptyset(&action.sa_mask);
    sigaction(SIGBUS, &action, NULL);
}
