/*
 * Times a request of 4 KiB of a guest that runs on during its calls, beside the same request of a guest on a board, whose disk the
 * host serves too: the driver's stores that offer it, the notify, the operation and its completion, without a byte moved. An IN
 * and an OUT, over split and packed rings, in memory that the host lends. In turn, the best of many rounds, in processor time.
 * bench/library builds it.
 *
 *     racing           prints the times of each request, and the ratios
 *     racing WAY N     makes N requests in the way board-in-split, guest-in-split, board-out-split, .. guest-out-packed, for callgrind
 */
#include <stdio.h>
#include <stdlib.h>
#include <string.h>
#include <time.h>

#include "kalyubos.h"

enum { ROUNDS = 200, REQUESTS = 1920, LEN = 4096, SECTORS = 128, MEMORY_LEN = 0x100000, QUEUE = 64, CHAIN = 3 };
static const uint64_t MEMORY = 0x80000000;
enum { TABLE = 0x1000, DRIVER = 0x2000, DEVICE = 0x3000, HEADER = 0x4000, DATA = 0x10000, NEXT = 1, WRITE = 2, AVAIL = 0x80, USED = 0x8000 };

struct descriptor {
    uint64_t addr;
    uint32_t len;
    uint16_t flags, last; /* where a split ring has `next`, a packed one `id`, in the place of the flags */
};

/* A way: a guest of a kind, and what its driver asks for. */
struct way {
    const char *name;
    bool runs, packed, is_out;
    struct kalyubos board;
    struct kalyubos_guest guest;
    uint64_t words[MEMORY_LEN / 8];
    uint16_t idx;            /* of a split ring */
    unsigned place, odd; /* where a packed ring goes on, and whether in a round of the other flags */
};

static struct way ways[] = {
    { .name = "board-in-split" },
    { .name = "guest-in-split", .runs = true },
    { .name = "board-out-split", .is_out = true },
    { .name = "guest-out-split", .is_out = true, .runs = true },
    { .name = "board-in-packed", .packed = true },
    { .name = "guest-in-packed", .packed = true, .runs = true },
    { .name = "board-out-packed", .packed = true, .is_out = true },
    { .name = "guest-out-packed", .packed = true, .is_out = true, .runs = true },
};
enum { WAYS = sizeof ways / sizeof *ways };

static void need(bool holds, const char *what)
{
    if (!holds) {
        fprintf(stderr, "racing: %s\n", what);
        exit(1);
    }
}

/* ---- the calls, by the kind of the guest */

static uint32_t store(struct way *way, uint16_t offset, uint32_t value, struct kalyubos_pending *pending)
{
    return way->runs ? kalyubos_guest_write(&way->guest, KALYUBOS_BLOCK, offset, 4, value, pending)
                     : kalyubos_write(&way->board, 0, KALYUBOS_BLOCK, offset, 4, value, pending);
}

static uint32_t ask(const struct way *way, struct kalyubos_operation *operation)
{
    static struct kalyubos_run runs[KALYUBOS_RUNS];
    return way->runs ? kalyubos_guest_operation(&way->guest, 0, operation, runs, KALYUBOS_RUNS)
                     : kalyubos_operation(&way->board, 0, KALYUBOS_BLOCK, 0, operation, runs, KALYUBOS_RUNS);
}

static uint32_t complete(struct way *way, struct kalyubos_pending *pending)
{
    return way->runs ? kalyubos_guest_completed(&way->guest, 0, false, pending)
                     : kalyubos_completed(&way->board, 0, KALYUBOS_BLOCK, 0, false, pending);
}

static void create(struct way *way)
{
    struct kalyubos_slot slot = { .size = sizeof slot, .regions = { { MEMORY, MEMORY_LEN } }, .count = SECTORS, .hosted = true,
                                  .depth = 1 };
    if (way->runs) {
        struct kalyubos_words words = { way->words, MEMORY_LEN / 8 };
        struct kalyubos_guest_config config = { .size = sizeof config, .slot = &slot, .words = &words, .words_len = 1 };
        need(kalyubos_guest_create(&way->guest, &config) == KALYUBOS_DONE, "a guest");
    } else {
        struct kalyubos_config config = kalyubos_config_of(&slot, 1);
        struct kalyubos_loan loan = { (uint8_t *)way->words, MEMORY_LEN };
        config.loans = &loan;
        config.loans_len = 1;
        need(kalyubos_create(&way->board, &config) == KALYUBOS_DONE, "a board");
    }
}

static uint32_t destroy(struct way *way)
{
    return way->runs ? kalyubos_guest_destroy(&way->guest) : kalyubos_destroy(&way->board);
}

/* ---- a driver with a queue of 64 */

static uint8_t *memory(struct way *way)
{
    return (uint8_t *)way->words;
}

/* A chain is a header, 4 KiB and a status. */
static struct descriptor part(const struct way *way, int number)
{
    const struct descriptor parts[CHAIN] = { { MEMORY + HEADER, 16, NEXT, 1 },
                                             { MEMORY + DATA, LEN, NEXT | (way->is_out ? 0 : WRITE), 2 },
                                             { MEMORY + HEADER + 16, 1, WRITE, 0 } };
    return parts[number];
}

static void power_on(struct way *way)
{
    const uint32_t at = (uint32_t)MEMORY;
    const uint32_t steps[][2] = { { 0x70, 1 }, { 0x70, 3 }, { 0x24, 1 }, { 0x20, way->packed ? 5 : 1 }, { 0x70, 11 }, { 0x38, QUEUE },
                                  { 0x80, at + TABLE }, { 0x90, at + DRIVER }, { 0xa0, at + DEVICE }, { 0x44, 1 }, { 0x70, 15 } };
    struct kalyubos_pending pending;
    memory(way)[HEADER] = way->is_out;
    create(way);
    for (size_t i = 0; i < sizeof steps / sizeof *steps; i++)
        need(store(way, (uint16_t)steps[i][0], steps[i][1], &pending) == KALYUBOS_DONE, "a store");
    for (int i = 0; i < CHAIN; i++) {
        struct descriptor it = part(way, i);
        memcpy(memory(way) + TABLE + 16 * i, &it, sizeof it);
    }
}

/* The available ring is of zeros, so each of its entries has the same chain as its head. */
static void offer_split(struct way *way)
{
    way->idx++;
    memcpy(memory(way) + DRIVER + 2, &way->idx, 2);
}

/* Writes the chain where the ring goes on; the first flags are written last (2.8.6). */
static void offer_packed(struct way *way)
{
    uint8_t *first = memory(way) + TABLE + 16 * way->place;
    uint16_t flags[CHAIN];
    for (int i = 0; i < CHAIN; i++) {
        struct descriptor it = part(way, i);
        flags[i] = it.flags | (way->odd ? USED : AVAIL);
        it.flags = 0; /* the buffer's id, where a split ring has the flags */
        it.last = i == 0 ? (uint16_t)(way->odd ? AVAIL : USED) : flags[i];
        memcpy(memory(way) + TABLE + 16 * way->place, &it, sizeof it);
        way->place = (way->place + 1) % QUEUE;
        way->odd ^= way->place == 0;
    }
    memcpy(first + 14, &flags[0], 2);
}

static void request(struct way *way)
{
    struct kalyubos_operation operation;
    struct kalyubos_pending pending;
    if (way->packed)
        offer_packed(way);
    else
        offer_split(way);
    need(store(way, 0x50, 0, &pending) == KALYUBOS_IO, "a notify");
    need(ask(way, &operation) == KALYUBOS_DONE && operation.len == LEN, "an operation");
    need(complete(way, &pending) == KALYUBOS_DONE && pending.block == 1 && memory(way)[HEADER + 16] == 0, "a completion");
}

/* ---- the times */

static double now(void)
{
    struct timespec t;
    clock_gettime(CLOCK_PROCESS_CPUTIME_ID, &t);
    return (double)t.tv_sec * 1e9 + (double)t.tv_nsec;
}

static void time_all(void)
{
    double best[WAYS];
    for (int i = 0; i < WAYS; i++)
        best[i] = 1e18;
    for (int round = 0; round < ROUNDS; round++)
        for (int i = 0; i < WAYS; i++) {
            double start = now();
            for (int j = 0; j < REQUESTS; j++)
                request(&ways[i]);
            double one = (now() - start) / REQUESTS;
            best[i] = one < best[i] ? one : best[i];
        }
    printf("a hosted request of 4 KiB      of a board     that runs on  ratio\n");
    for (int i = 0; i < WAYS; i += 2)
        printf("%-3s %-6s             %12.1f ns  %12.1f ns  %5.2f\n", ways[i].is_out ? "OUT" : "IN",
               ways[i].packed ? "packed" : "split", best[i], best[i + 1], best[i + 1] / best[i]);
}

int main(int words_len, char **words)
{
    for (int i = 0; i < WAYS; i++)
        power_on(&ways[i]);
    if (words_len == 3) {
        int way = 0;
        while (way + 1 < WAYS && strcmp(words[1], ways[way].name) != 0)
            way++;
        for (int i = 0, len = atoi(words[2]); i < len; i++)
            request(&ways[way]);
    } else {
        time_all();
    }
    for (int i = 0; i < WAYS; i++)
        need(destroy(&ways[i]) == KALYUBOS_DONE, "destroy");
    return 0;
}
