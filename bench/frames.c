/*
 * Times frames of a network card from C: the processor time of one, the best of many rounds. bench/library builds it.
 */
#include <stdio.h>
#include <stdlib.h>
#include <string.h>
#include <time.h>

#include "kalyubos.h"

enum { ROUNDS = 2000, COUNT = 1024, BURST = 32, CHAINS = 64, HEADER = 12, SHORT = 64, LONG = 1514, CARD = KALYUBOS_DEVICE };

static const uint64_t MEMORY = 0x80000000;

/* Where a queue and its one buffer lie, from the memory's first byte on. */
struct place {
    uint32_t descriptors, available, used, buffer;
};
static const struct place RECEIVE = { 0x1000, 0x2000, 0x3000, 0x10000 }, TRANSMIT = { 0x5000, 0x6000, 0x7000, 0x20000 };

static struct kalyubos board;
static uint8_t frame[LONG], other[LONG], store[65536], *memory;
static size_t frame_len, first, end;

static void must(uint32_t answer)
{
    if (answer != KALYUBOS_DONE) {
        fprintf(stderr, "refused with %u\n", (unsigned)answer);
        exit(1);
    }
}

static void set(uint16_t offset, uint32_t value)
{
    struct kalyubos_pending pending;
    must(kalyubos_write(&board, 0, CARD, offset, 4, value, &pending));
}

/* A queue whose every chain is one buffer. */
static void bring_up_queue(uint32_t number, const struct place *place, uint16_t flags)
{
    struct { uint64_t addr; uint32_t len; uint16_t flags, next; } it = { MEMORY + place->buffer, HEADER, flags, 0 };
    it.len += (uint32_t)(flags ? LONG : frame_len);
    memcpy(memory + place->descriptors, &it, sizeof it);
    set(0x30, number);
    set(0x38, CHAINS);
    set(0x80, (uint32_t)MEMORY + place->descriptors);
    set(0x90, (uint32_t)MEMORY + place->available);
    set(0xa0, (uint32_t)MEMORY + place->used);
    set(0x44, 1);
}

/* One guest with a card, and a driver that has both queues ready. */
static void open_board(size_t len)
{
    struct kalyubos_slot slot = {
        .size = sizeof slot, .regions = { { MEMORY, 0x100000 } }, .cols = 80, .rows = 25, .hosted = true, .count = 8,
        .devices = { { .kind = KALYUBOS_NETWORK, .mtu = 1500, .mac = { 0x52, 0x54, 0, 0, 0, 1 } } },
    };
    struct kalyubos_config config = kalyubos_config_of(&slot, 1);
    size_t memory_len;
    must(kalyubos_create(&board, &config));
    must(kalyubos_memory(&board, 0, MEMORY, &memory, &memory_len));
    frame_len = len;
    first = end = 0;
    set(0x70, 0);
    set(0x70, 1);
    set(0x70, 3);
    set(0x24, 1);
    set(0x20, 1);
    set(0x70, 11);
    bring_up_queue(0, &RECEIVE, 2);
    bring_up_queue(1, &TRANSMIT, 0);
    set(0x70, 15);
}

/* So many more chains are on offer. */
static void offer(const struct place *place, int count)
{
    uint16_t idx;
    memcpy(&idx, memory + place->available + 2, 2);
    idx = (uint16_t)(idx + count);
    memcpy(memory + place->available + 2, &idx, 2);
}

/* The driver sends so many frames with one notification, and the host takes each. */
static void out(int count)
{
    size_t len;
    offer(&TRANSMIT, count);
    set(0x50, 1);
    for (int i = 0; i < count; i++) {
        must(kalyubos_take_frame(&board, 0, CARD, frame, LONG, &len));
        if (len != frame_len)
            must(KALYUBOS_BAD_SLOT);
    }
}

/* The driver offers so many chains, and the host hands in a frame for each. */
static void in(int count)
{
    bool taken;
    offer(&RECEIVE, count);
    for (int i = 0; i < count; i++) {
        must(kalyubos_receive(&board, 0, CARD, frame, frame_len, &taken));
        if (!taken)
            must(KALYUBOS_BAD_SLOT);
    }
}

/* The like of it without a board. The compiler can't see what the copies are for. */
static void *(*volatile copy)(void *, const void *, size_t) = memcpy;

/* The place of a store's next frame, all in turn. */
static uint8_t *next(size_t *at)
{
    uint8_t *place = store + *at;
    *at = *at + 2 * frame_len > sizeof store ? 0 : *at + frame_len;
    return place;
}

static void copy_twice(int count)
{
    for (int i = 0; i < count; i++)
        copy(next(&end), other, frame_len);
    for (int i = 0; i < count; i++)
        copy(frame, next(&first), frame_len);
}

static double now(void)
{
    struct timespec t;
    clock_gettime(CLOCK_PROCESS_CPUTIME_ID, &t);
    return (double)t.tv_sec * 1e9 + (double)t.tv_nsec;
}

/* Prints what one frame takes of work that does so many at once. */
static void time_of(const char *what, void (*work)(int), int count)
{
    double best = 1e18;
    for (int round = 0; round < ROUNDS; round++) {
        double start = now();
        for (int i = 0; i < COUNT / count; i++)
            work(count);
        double one = (now() - start) / COUNT;
        best = one < best ? one : best;
    }
    printf("%4zu bytes %-42s %8.1f ns\n", frame_len, what, best);
}

/* What is counted of one frame alone: `frames WAY FRAMES`. */
static const struct { const char *name; void (*work)(int); int count; } WAYS[] = {
    { "out", out, 1 }, { "out-32", out, BURST }, { "in", in, 1 }, { "in-32", in, BURST },
};

static void make(const char *way, int frames)
{
    open_board(SHORT);
    for (size_t i = 0; i < sizeof WAYS / sizeof *WAYS; i++)
        if (strcmp(WAYS[i].name, way) == 0)
            for (int made = 0; made < frames; made += WAYS[i].count)
                WAYS[i].work(WAYS[i].count);
    must(kalyubos_destroy(&board));
}

int main(int words_len, char **words)
{
    const size_t lengths[] = { SHORT, LONG };
    if (words_len == 3) {
        make(words[1], atoi(words[2]));
        return 0;
    }
    for (size_t i = 0; i < sizeof lengths / sizeof *lengths; i++) {
        open_board(lengths[i]);
        time_of("out: offered, notified, taken", out, 1);
        time_of("out: 32 offered, notified, each taken", out, BURST);
        time_of("in: offered, handed in", in, 1);
        time_of("in: 32 offered, each handed in", in, BURST);
        time_of("copied twice", copy_twice, 1);
        time_of("32 copied twice", copy_twice, BURST);
        must(kalyubos_destroy(&board));
    }
    return 0;
}
