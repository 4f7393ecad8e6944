/*
 * Times a disk that the host serves beside one in an image: a notify with one IN of 4 KiB, memory in place, and where the host
 * serves it the notify that asks, kalyubos_operation and kalyubos_completed, without a byte moved; also of 8 and of 32 requests
 * that one notify asks for, which are in flight together and are completed from the last to the first; and the first two over
 * memory that is lent. In turn, the best of many rounds, in processor time; and how often the heap was called meanwhile.
 * bench/library builds it.
 *
 *     hosted           prints the times of one request, and a ratio
 *     hosted WAY N     makes N requests in the way image, host, 8, 32, lent-image or lent-host, for callgrind
 */
#include <stdio.h>
#include <stdlib.h>
#include <string.h>
#include <time.h>

#include "kalyubos.h"

enum { ROUNDS = 200, REQUESTS = 1920, LEN = 4096, SECTORS = 128, MEMORY_LEN = 0x100000, QUEUE = 64 };
static const uint64_t MEMORY = 0x80000000;
enum { TABLE = 0x1000, AVAIL = 0x2000, HEADER = 0x4000, DATA = 0x10000 };

struct guest {
    struct kalyubos board;
    uint8_t *memory;
    uint16_t idx;
};

static struct guest in_image, by_host, deep[2], lent_in_image, lent_by_host;
static const uint32_t DEPTHS[2] = { 8, 32 };
static uint8_t lent[2][MEMORY_LEN];
static uint8_t image[SECTORS * 512], buffer[LEN], other[LEN];

static void need(bool holds, const char *what)
{
    if (!holds) {
        fprintf(stderr, "hosted: %s\n", what);
        exit(1);
    }
}

/* ---- the heap, which counts its calls */

static uint64_t heap_calls;

struct kalyubos_block kalyubos_alloc(size_t size, size_t align)
{
    heap_calls++;
    void *at = malloc(size != 0 ? size : align);
    return (struct kalyubos_block){ at != NULL, at };
}

struct kalyubos_block kalyubos_realloc(void *at, size_t kept, size_t size, size_t align)
{
    (void)kept;
    heap_calls++;
    void *moved = realloc(at, size != 0 ? size : align);
    return (struct kalyubos_block){ moved != NULL, moved };
}

void kalyubos_dealloc(void *at)
{
    heap_calls++;
    free(at);
}

/* ---- a driver with a queue of 64, whose every chain is one IN of the first 4 KiB */

static void describe(struct guest *guest, int place, uint64_t at, uint32_t len, uint16_t flags, uint16_t next)
{
    struct { uint64_t addr; uint32_t len; uint16_t flags, next; } it = { MEMORY + at, len, flags, next };
    memcpy(guest->memory + TABLE + 16 * place, &it, sizeof it);
}

/* Over bytes that are lent, or over the library's own. */
static void power_on(struct guest *guest, bool is_hosted, uint32_t depth, uint8_t *bytes)
{
    const uint32_t at = (uint32_t)MEMORY;
    const uint32_t steps[][2] = { { 0x70, 1 }, { 0x70, 3 }, { 0x24, 1 }, { 0x20, 1 }, { 0x70, 11 }, { 0x38, QUEUE },
                                  { 0x80, at + TABLE }, { 0x90, at + AVAIL }, { 0xa0, at + 0x3000 }, { 0x44, 1 }, { 0x70, 15 } };
    struct kalyubos_slot slot = { .size = sizeof slot, .regions = { { MEMORY, MEMORY_LEN } }, .count = SECTORS,
                                  .hosted = is_hosted, .depth = depth };
    struct kalyubos_config config = kalyubos_config_of(&slot, 1);
    struct kalyubos_loan loan = { bytes, MEMORY_LEN };
    struct kalyubos_pending pending;
    size_t len;
    if (bytes != NULL) {
        config.loans = &loan;
        config.loans_len = 1;
    }
    config.image = image;
    config.image_len = is_hosted ? 0 : sizeof image;
    need(kalyubos_create(&guest->board, &config) == KALYUBOS_DONE, "a board");
    need(kalyubos_memory(&guest->board, 0, MEMORY, &guest->memory, &len) == KALYUBOS_DONE, "memory");
    for (size_t i = 0; i < sizeof steps / sizeof *steps; i++)
        need(kalyubos_write(&guest->board, 0, KALYUBOS_BLOCK, (uint16_t)steps[i][0], 4, steps[i][1], &pending) ==
             KALYUBOS_DONE, "a store");
    describe(guest, 0, HEADER, 16, 1, 1);
    describe(guest, 1, DATA, LEN, 3, 2);
    describe(guest, 2, HEADER + 16, 1, 2, 0);
}

/* Offers so many chains, and notifies. */
static uint32_t notify(struct guest *guest, uint32_t chains, struct kalyubos_pending *pending)
{
    guest->idx = (uint16_t)(guest->idx + chains);
    memcpy(guest->memory + AVAIL + 2, &guest->idx, 2);
    return kalyubos_write(&guest->board, 0, KALYUBOS_BLOCK, 0x50, 4, 0, pending);
}

static void read_from(struct guest *guest)
{
    struct kalyubos_pending pending;
    need(notify(guest, 1, &pending) == KALYUBOS_DONE && pending.block == 1 && guest->memory[HEADER + 16] == 0, "an IN");
}

static void read_image(void)
{
    read_from(&in_image);
}

static void read_lent_image(void)
{
    read_from(&lent_in_image);
}

/* Asks for so many reads at once, and completes them. */
static void ask_for(struct guest *guest, uint32_t depth)
{
    static struct kalyubos_run runs[KALYUBOS_RUNS];
    struct kalyubos_operation operation;
    struct kalyubos_pending pending;
    uint64_t tags = 0;
    need(notify(guest, depth, &pending) == KALYUBOS_IO, "a notify");
    if (depth > 1)
        need(kalyubos_in_flight(&guest->board, 0, KALYUBOS_BLOCK, &tags) == KALYUBOS_DONE && tags == ((uint64_t)1 << depth) - 1,
             "what began");
    for (uint32_t tag = 0; tag < depth; tag++)
        need(kalyubos_operation(&guest->board, 0, KALYUBOS_BLOCK, (uint8_t)tag, &operation, runs, KALYUBOS_RUNS) == KALYUBOS_DONE &&
             operation.len == LEN, "an operation");
    for (uint32_t left = depth; left > 0; left--)
        need(kalyubos_completed(&guest->board, 0, KALYUBOS_BLOCK, (uint8_t)(left - 1), false, &pending) == KALYUBOS_DONE &&
             pending.block == 1 && guest->memory[HEADER + 16] == 0, "a completion");
}

static void ask_host(void)
{
    ask_for(&by_host, 1);
}

static void ask_lent_host(void)
{
    ask_for(&lent_by_host, 1);
}

static void ask_for_8(void)
{
    ask_for(&deep[0], DEPTHS[0]);
}

static void ask_for_32(void)
{
    ask_for(&deep[1], DEPTHS[1]);
}

/* The compiler can't see what the copy is for. */
static void *(*volatile copy)(void *, const void *, size_t) = memcpy;

static void copy_alone(void)
{
    copy(buffer, other, LEN);
}

/* ---- the times */

static double now(void)
{
    struct timespec t;
    clock_gettime(CLOCK_PROCESS_CPUTIME_ID, &t);
    return (double)t.tv_sec * 1e9 + (double)t.tv_nsec;
}

static const struct {
    const char *name;
    void (*makes)(void);
    int requests;
    const char *what;
} WAYS[] = {
    { "image", read_image, 1, "a notify with one IN of 4 KiB, out of an image" },
    { "host", ask_host, 1, "hosted: the notify, its operation, its completion" },
    { "8", ask_for_8, 8, "hosted: the same of one request, of 8 in flight" },
    { "32", ask_for_32, 32, "hosted: the same of one request, of 32 in flight" },
    { "lent-image", read_lent_image, 1, "over lent memory: out of an image" },
    { "lent-host", ask_lent_host, 1, "over lent memory: hosted" },
    { "copy", copy_alone, 1, "a copy of 4 KiB" },
};
enum { IMAGE = 0, HOST = 1, COPY = 6, WAYS_LEN = 7 };

static void time_all(void)
{
    double best[WAYS_LEN];
    uint64_t before = heap_calls;
    for (int way = 0; way < WAYS_LEN; way++)
        best[way] = 1e18;
    for (int round = 0; round < ROUNDS; round++) {
        for (int way = 0; way < WAYS_LEN; way++) {
            double start = now();
            for (int i = 0; i < REQUESTS; i += WAYS[way].requests)
                WAYS[way].makes();
            double one = (now() - start) / REQUESTS;
            best[way] = one < best[way] ? one : best[way];
        }
    }
    for (int way = 0; way < WAYS_LEN; way++)
        printf("%-52s %8.1f ns\n", WAYS[way].what, best[way]);
    printf("%-52s %8.2f\n", "hosted, to the notify less its copy", best[HOST] / (best[IMAGE] - best[COPY]));
    printf("%-52s %8d\n", "calls of the heap meanwhile", (int)(heap_calls - before));
}

int main(int words_len, char **words)
{
    power_on(&in_image, false, 0, NULL);
    power_on(&by_host, true, 1, NULL);
    power_on(&lent_in_image, false, 0, lent[0]);
    power_on(&lent_by_host, true, 1, lent[1]);
    for (int i = 0; i < 2; i++)
        power_on(&deep[i], true, DEPTHS[i], NULL);
    if (words_len == 3) {
        int way = 0;
        while (way + 1 < WAYS_LEN && strcmp(words[1], WAYS[way].name) != 0)
            way++;
        for (int i = 0, len = atoi(words[2]); i < len; i += WAYS[way].requests)
            WAYS[way].makes();
    } else {
        time_all();
    }
    struct guest *guests[] = { &in_image, &by_host, &deep[0], &deep[1], &lent_in_image, &lent_by_host };
    for (int i = 0; i < 6; i++)
        need(kalyubos_destroy(&guests[i]->board) == KALYUBOS_DONE, "destroy");
    return 0;
}
