/*
 * How long fifteen guests wait for a 4 KiB IN beside one that keeps the board as busy as it can, under one lock: without a
 * budget, with two, and by each device of a slot. bench/library builds it.
 *
 * In each round every guest asks at once, the hostile one is called first, and the others one after another. What each
 * of them waits is the time from the round's start to the end of its own call. A host that serves the disks moves no
 * byte here, and a guest's own calls are three: the notify, kalyubos_operation and kalyubos_completed. One of the hostile guest's
 * calls may begin as many operations as its disk is deep.
 */
#include <stdint.h>
#include <stdio.h>
#include <stdlib.h>
#include <string.h>
#include <time.h>

#include "kalyubos.h"

enum { GUESTS = 16, RING = 256, CHAINS = 3 * RING, TEXT = RING * RING, LEN = 4096, LARGE = 8 << 20 };
enum { SECTORS = LARGE / 512 };
static const uint64_t BASE = 0x80000000, AVAIL = 0x80002000, HEADER = 0x80005000, DATA = 0x80010000,
                      TABLES = 0x80100000;

static struct kalyubos board;
static uint8_t image[(SECTORS + GUESTS * LEN / 512) * 512], *memory[GUESTS];
static uint16_t idx[GUESTS];

static void must(uint32_t answer)
{
    if (answer != KALYUBOS_DONE) {
        fprintf(stderr, "refused with %u\n", (unsigned)answer);
        exit(1);
    }
}

static void describe(uint8_t *table, int place, uint64_t addr, uint32_t len, uint16_t flags, uint16_t next)
{
    struct { uint64_t addr; uint32_t len; uint16_t flags, next; } it = { addr, len, flags, next };
    memcpy(table + 16 * place, &it, sizeof it);
}

static void descriptor(uint8_t guest, int place, uint64_t addr, uint32_t len, uint16_t flags, uint16_t next)
{
    describe(memory[guest] + 0x1000, place, addr, len, flags, next);
}

/* A queue of 256 of a disk's window, each of whose chains is one IN of its first `len` bytes into so many buffers. */
static void bring_up_window(uint8_t guest, uint8_t window, uint32_t len, uint16_t buffers)
{
    const uint32_t steps[][2] = { { 0x70, 0 }, { 0x70, 1 }, { 0x70, 3 }, { 0x24, 1 }, { 0x20, 1 }, { 0x70, 11 },
                                  { 0x38, RING }, { 0x80, 0x80001000 }, { 0x90, 0x80002000 }, { 0xa0, 0x80003000 },
                                  { 0x44, 1 }, { 0x70, 15 } };
    struct kalyubos_pending pending;
    size_t memory_len;
    must(kalyubos_memory(&board, guest, BASE, &memory[guest], &memory_len));
    for (size_t i = 0; i < sizeof steps / sizeof *steps; i++)
        must(kalyubos_write(&board, guest, window, (uint16_t)steps[i][0], 4, steps[i][1], &pending));
    descriptor(guest, 0, HEADER, 16, 1, 1);
    for (uint16_t i = 0; i < buffers; i++) {
        uint32_t part = len / buffers;
        uint64_t from = DATA + (uint64_t)i * part;
        descriptor(guest, 1 + i, from, i + 1 == buffers ? len - i * part : part, 3, i + 2);
    }
    descriptor(guest, 1 + buffers, HEADER + 16, 1, 2, 0);
    idx[guest] = 0;
}

static void bring_up(uint8_t guest, uint32_t len, uint16_t buffers)
{
    bring_up_window(guest, KALYUBOS_BLOCK, len, buffers);
}

/* Offers so many chains, and notifies. */
static uint32_t notify_window(uint8_t guest, uint8_t window, uint16_t chains)
{
    struct kalyubos_pending pending;
    idx[guest] += chains;
    memcpy(memory[guest] + (AVAIL - BASE) + 2, &idx[guest], 2);
    return kalyubos_write(&board, guest, window, 0x50, 4, 0, &pending);
}

static uint32_t notify(uint8_t guest, uint16_t chains)
{
    return notify_window(guest, KALYUBOS_BLOCK, chains);
}

/* Microseconds of processor time: other work on the machine counts for nothing. */
static double now(void)
{
    struct timespec t;
    clock_gettime(CLOCK_PROCESS_CPUTIME_ID, &t);
    return (double)t.tv_sec * 1e6 + (double)t.tv_nsec / 1e3;
}

/* Makes a board of all guests, over an image of all disks or with disks that the host serves. */
static void make(bool hosted, uint32_t depth, uint32_t chains, uint64_t bytes)
{
    struct kalyubos_slot slots[GUESTS];
    struct kalyubos_config config = kalyubos_config_of(slots, GUESTS);
    for (uint8_t i = 0; i < GUESTS; i++)
        slots[i] = (struct kalyubos_slot){
            .size = sizeof *slots, .regions = { { BASE, i ? 0x20000 : 0x20000 + LARGE } },
            .start = i ? SECTORS + (uint64_t)i * LEN / 512 : 0, .count = i ? LEN / 512 : SECTORS,
            .cols = 80, .rows = 25, .outlet = TEXT, .hosted = hosted, .spare = hosted ? 0 : LEN / 512 * !i,
            .depth = depth,
            .devices = { { .kind = KALYUBOS_CONSOLE_DEVICE, .cols = 80, .rows = 25 },
                         { .kind = KALYUBOS_NETWORK, .mtu = 1500 }, { .kind = KALYUBOS_ENTROPY },
                         { .kind = KALYUBOS_DISK, .sectors = SECTORS, .depth = depth },
                         { .kind = hosted || i ? KALYUBOS_NO_DEVICE : KALYUBOS_IMAGE_DISK, .sectors = LEN / 512 } },
        };
    config.image = image;
    config.image_len = hosted ? 0 : sizeof image;
    config.chains = chains;
    config.bytes = bytes;
    must(kalyubos_create(&board, &config));
}

/* The waits of the guests, and the calls of the hostile one. */
static double longest, sum, longest_call;
static long waits, calls;

static void take_in_call(double took)
{
    longest_call = took > longest_call ? took : longest_call;
    calls++;
}

static void take_in(double wait)
{
    longest = wait > longest ? wait : longest;
    sum += wait;
    waits++;
}

static void begin(void)
{
    longest = sum = longest_call = 0;
    waits = calls = 0;
}

static void tell(const char *what)
{
    printf("%-48s %4ld calls, the longest %9.1f us; longest wait %9.1f us, mean %9.1f us\n", what, calls, longest_call,
           longest, sum / (double)waits);
}

static void end(const char *what)
{
    tell(what);
    must(kalyubos_destroy(&board));
}

static void time_of(const char *what, uint32_t chains, uint64_t bytes, uint32_t len)
{
    struct kalyubos_pending pending;
    make(false, 1, chains, bytes);
    for (uint8_t i = 0; i < GUESTS; i++)
        bring_up(i, i ? LEN : len, 1);
    uint32_t answer = KALYUBOS_DONE;
    begin();
    for (int services = 0; services < CHAINS / RING || answer == KALYUBOS_MORE;) {
        double start = now();
        answer = answer == KALYUBOS_MORE ? kalyubos_go_on(&board, 0, &pending) : notify(0, RING);
        take_in_call(now() - start);
        if (answer != KALYUBOS_MORE) {
            must(answer);
            services++;
        }
        for (uint8_t guest = 1; guest < GUESTS; guest++) {
            must(notify(guest, 1));
            take_in(now() - start);
        }
    }
    end(what);
}

/* Asks what a guest's disk is asked for with a tag, which is an IN of so many bytes. */
static void ask(uint8_t guest, uint8_t window, uint8_t tag, uint32_t len)
{
    static struct kalyubos_run runs[KALYUBOS_RUNS];
    struct kalyubos_operation operation;
    must(kalyubos_operation(&board, guest, window, tag, &operation, runs, KALYUBOS_RUNS));
    if (operation.len != len)
        must(KALYUBOS_IDLE);
}

/* How long the hostile guest's calls and the others' waits took, the best of RUNS runs that do the same. */
enum { RUNS = 20, MOST_CALLS = CHAINS + CHAINS / RING, PAUSING_CALLS = MOST_CALLS + CHAINS / RING * (KALYUBOS_TAGS - 1) };
static double call_took[PAUSING_CALLS], wait_took[PAUSING_CALLS][GUESTS];

static void keep_best(double *best, double took, int run)
{
    if (run == 0 || took < *best)
        *best = took;
}

/* What the hostile guest does: what it begins with, and each of so many calls. Of a further device it is the window. The host
 * serves the slots' own disks, or they are of the image. */
struct hostile {
    void (*begin)(const struct hostile *it);
    uint32_t (*call)(const struct hostile *it, uint32_t answer);
    int calls;
    uint32_t depth, chains, len;
    uint16_t buffers;
    uint8_t window;
    bool of_image;
};

enum { CONSOLE = KALYUBOS_DEVICE, CARD, ENTROPY, DISK, IMAGE_DISK };

static void begin_reads(const struct hostile *it)
{
    bring_up_window(0, it->window, it->len, it->buffers);
}

/* Its disk: it notifies, its service goes on, or the host says that one of its operations is done. */
static uint32_t call_disk(const struct hostile *it, uint32_t answer)
{
    struct kalyubos_pending pending;
    uint64_t before = 0, after = 0;
    must(kalyubos_in_flight(&board, 0, it->window, &before));
    if (answer == KALYUBOS_MORE) {
        answer = kalyubos_go_on(&board, 0, &pending);
    } else if (before == 0) {
        answer = notify_window(0, it->window, RING);
    } else {
        uint8_t tag = (uint8_t)__builtin_ctzll(before);
        before &= before - 1;
        answer = kalyubos_completed(&board, 0, it->window, tag, false, &pending);
    }
    must(answer == KALYUBOS_IO || answer == KALYUBOS_MORE ? KALYUBOS_DONE : answer);
    must(kalyubos_in_flight(&board, 0, it->window, &after));
    for (uint64_t fresh = after & ~before; fresh != 0; fresh &= fresh - 1)
        ask(0, it->window, (uint8_t)__builtin_ctzll(fresh), it->len);
    return answer;
}

/* A window has one queue of 256, with INDIRECT_DESC, whose every chain is a table of 256 buffers of so many bytes. */
static void begin_tables(uint8_t window, uint32_t queue, uint32_t len)
{
    const uint32_t steps[][2] = { { 0x70, 0 }, { 0x70, 1 }, { 0x70, 3 }, { 0x24, 0 }, { 0x20, 1 << 28 }, { 0x24, 1 },
                                  { 0x20, 1 }, { 0x70, 11 }, { 0x30, queue }, { 0x38, RING }, { 0x80, 0x80001000 },
                                  { 0x90, 0x80002000 }, { 0xa0, 0x80003000 }, { 0x44, 1 }, { 0x70, 15 } };
    struct kalyubos_pending pending;
    size_t memory_len;
    must(kalyubos_memory(&board, 0, BASE, &memory[0], &memory_len));
    for (size_t i = 0; i < sizeof steps / sizeof *steps; i++)
        must(kalyubos_write(&board, 0, window, (uint16_t)steps[i][0], 4, steps[i][1], &pending));
    for (uint16_t i = 0; i < RING; i++) {
        uint64_t table = TABLES + (uint64_t)i * RING * 16;
        descriptor(0, i, table, RING * 16, 4, 0);
        memcpy(memory[0] + (AVAIL - BASE) + 4 + 2 * i, &i, sizeof i);
        for (uint16_t j = 0; j < RING; j++)
            describe(memory[0] + (table - BASE), j, DATA + j, len, j + 1 < RING, j + 1);
    }
    idx[0] = 0;
}

/* To its console: 256 bytes a chain. */
static void begin_texts(const struct hostile *it)
{
    (void)it;
    begin_tables(KALYUBOS_CONSOLE, 1, 1);
}

/* To a disk: requests of no known type, of a header, 254 bytes and a status, which ask the host for nothing. */
static void begin_others(const struct hostile *it)
{
    begin_tables(it->window, 0, 1);
    memory[0][HEADER - BASE] = 99;
    for (uint16_t i = 0; i < RING; i++) {
        uint8_t *table = memory[0] + (TABLES - BASE) + (uint64_t)i * RING * 16;
        describe(table, 0, HEADER, 16, 1, 1);
        describe(table, RING - 1, HEADER + 16, 1, 2, 0);
    }
}

/* Either window: it puts 256 chains more on offer, or its service goes on. */
static uint32_t call_window(uint8_t window, uint32_t queue, uint32_t answer)
{
    struct kalyubos_pending pending;
    if (answer == KALYUBOS_MORE)
        return kalyubos_go_on(&board, 0, &pending);
    idx[0] += RING;
    memcpy(memory[0] + (AVAIL - BASE) + 2, &idx[0], 2);
    return kalyubos_write(&board, 0, window, 0x50, 4, queue, &pending);
}

static uint32_t call_console(const struct hostile *it, uint32_t answer)
{
    (void)it;
    return call_window(KALYUBOS_CONSOLE, 1, answer);
}

static uint32_t call_other(const struct hostile *it, uint32_t answer)
{
    return call_window(it->window, 0, answer);
}

/* To an entropy device, which has a byte: 256 readable bytes a chain, so that none takes it. */
static void begin_entropy(const struct hostile *it)
{
    size_t taken;
    begin_tables(it->window, 0, 1);
    must(kalyubos_supply(&board, 0, it->window, (const uint8_t *)"r", 1, &taken));
}

/* To a further device: 256 bytes a chain to a console, and nothing to a card, which drops a chain without a frame. */
static void begin_further(const struct hostile *it)
{
    begin_tables(it->window, 1, it->window == CONSOLE);
}

static uint32_t call_further(const struct hostile *it, uint32_t answer)
{
    return call_window(it->window, 1, answer);
}

/* Takes what the hostile guest's consoles put out, between the rounds; of a further one once its service has ended. */
static void take_text(const struct hostile *it, uint32_t answer)
{
    static uint8_t text[TEXT];
    size_t taken;
    must(kalyubos_take_output(&board, 0, text, sizeof text, &taken));
    if (it->window == CONSOLE && answer != KALYUBOS_MORE)
        must(kalyubos_take_frame(&board, 0, CONSOLE, text, sizeof text, &taken));
}

/* All that the hostile guest put on offer was served. */
static void all_served(const struct hostile *it)
{
    struct kalyubos_counters counters;
    uint16_t used;
    memcpy(&used, memory[0] + 0x3002, sizeof used);
    must(kalyubos_counters(&board, 0, &counters));
    if (used != CHAINS || counters.faults != 0 || (it->window == 0 && counters.chains != CHAINS))
        must(KALYUBOS_IDLE);
}

/* Another guest's IN, from its notify to its end. */
static void read_once(const struct hostile *it, uint8_t guest)
{
    struct kalyubos_pending pending;
    uint32_t answer = notify(guest, 1);
    if (it->of_image) {
        must(answer);
        return;
    }
    must(answer == KALYUBOS_IO ? KALYUBOS_DONE : KALYUBOS_IDLE);
    ask(guest, KALYUBOS_BLOCK, 0, LEN);
    must(kalyubos_completed(&board, guest, KALYUBOS_BLOCK, 0, false, &pending));
}

static void run_beside(const struct hostile *it, int run)
{
    make(!it->of_image, it->depth, it->chains, 0);
    it->begin(it);
    for (uint8_t i = 1; i < GUESTS; i++)
        bring_up(i, LEN, 1);
    uint32_t answer = KALYUBOS_DONE;
    for (calls = 0; calls < it->calls; calls++) {
        take_text(it, answer);
        double start = now();
        answer = it->call(it, answer);
        keep_best(&call_took[calls], now() - start, run);
        if (answer != KALYUBOS_IO && answer != KALYUBOS_MORE)
            must(answer);
        for (uint8_t guest = 1; guest < GUESTS; guest++) {
            read_once(it, guest);
            keep_best(&wait_took[calls][guest], now() - start, run);
        }
    }
    must(answer); /* the last service is at its end */
    all_served(it);
    if (run + 1 < RUNS)
        must(kalyubos_destroy(&board));
}

/* Takes in the calls of the hostile guest and the waits behind them; every `but`th call, from the first on, is left out. */
static void take_in_all(const struct hostile *it, int but)
{
    begin();
    for (int call = 0; call < it->calls; call++) {
        if (but != 0 && call % but == 0)
            continue;
        take_in_call(call_took[call]);
        for (uint8_t guest = 1; guest < GUESTS; guest++)
            take_in(wait_took[call][guest]);
    }
}

static void time_beside(const char *what, struct hostile it)
{
    for (int run = 0; run < RUNS; run++)
        run_beside(&it, run);
    take_in_all(&it, 0);
    tell(what);
    if (it.depth > 1 && it.window == KALYUBOS_BLOCK) {
        take_in_all(&it, 1 + RING);
        tell("  but for the notifications, which begin them all");
    }
    must(kalyubos_destroy(&board));
}

int main(void)
{
    time_of("256 chains of 8 MiB, no budget", 0, 0, LARGE);
    time_of("256 chains of 8 MiB, 1 chain a call", 1, 0, LARGE);
    time_of("256 chains of 8 MiB, 64 KiB a call", 0, 0x10000, LARGE);
    time_of("256 chains of 4 KiB, no budget", 0, 0, LEN);
    time_of("256 chains of 4 KiB, 1 chain a call", 1, 0, LEN);
    time_of("256 chains of 4 KiB, 64 KiB a call", 0, 0x10000, LEN);
    time_beside("256 chains of 8 MiB, hosted", (struct hostile){ begin_reads, call_disk, MOST_CALLS, 1, 0, LARGE, 1, 0, false });
    time_beside("256 chains of 8 MiB in 254 buffers, hosted",
                (struct hostile){ begin_reads, call_disk, MOST_CALLS, 1, 0, LARGE, 254, 0, false });
    time_beside("256 chains of 8 MiB, 64 in flight",
                (struct hostile){ begin_reads, call_disk, MOST_CALLS, KALYUBOS_TAGS, 0, LARGE, 1, 0, false });
    time_beside("256 chains of 8 MiB in 254 buffers, 64 in flight",
                (struct hostile){ begin_reads, call_disk, MOST_CALLS, KALYUBOS_TAGS, 0, LARGE, 254, 0, false });
    time_beside("256 tables of 256 bytes to a console, no budget",
                (struct hostile){ begin_texts, call_console, CHAINS / RING, 1, 0, 0, 0, 0, false });
    time_beside("256 tables of 256 bytes to a console, 1 chain",
                (struct hostile){ begin_texts, call_console, CHAINS, 1, 1, 0, 0, 0, false });
    time_beside("256 tables of 256 buffers to a disk, 1 chain",
                (struct hostile){ begin_others, call_other, CHAINS / RING, 1, 1, 0, 0, 0, false });
    time_beside("256 tables to a further console, no budget",
                (struct hostile){ begin_further, call_further, CHAINS / RING, 1, 0, 0, 0, CONSOLE, false });
    time_beside("256 tables to a further console, 1 chain",
                (struct hostile){ begin_further, call_further, CHAINS, 1, 1, 0, 0, CONSOLE, false });
    time_beside("256 tables of 256 buffers to a card, no budget",
                (struct hostile){ begin_further, call_further, CHAINS / RING, 1, 0, 0, 0, CARD, false });
    time_beside("256 tables of 256 buffers to a card, 1 chain",
                (struct hostile){ begin_further, call_further, CHAINS, 1, 1, 0, 0, CARD, false });
    time_beside("256 tables to an entropy device, no budget",
                (struct hostile){ begin_entropy, call_other, CHAINS / RING, 1, 0, 0, 0, ENTROPY, false });
    time_beside("256 tables to an entropy device, 1 chain",
                (struct hostile){ begin_entropy, call_other, CHAINS, 1, 1, 0, 0, ENTROPY, false });
    time_beside("256 chains of 254 buffers to a further disk, none",
                (struct hostile){ begin_reads, call_disk, MOST_CALLS, KALYUBOS_TAGS, 0, LARGE, 254, DISK, false });
    time_beside("256 chains of 254 buffers to a further disk, 1",
                (struct hostile){ begin_reads, call_disk, PAUSING_CALLS, KALYUBOS_TAGS, 1, LARGE, 254, DISK, false });
    time_beside("256 tables to a further disk, no budget",
                (struct hostile){ begin_others, call_other, CHAINS / RING, 1, 0, 0, 0, DISK, false });
    time_beside("256 tables to a further disk, 1 chain",
                (struct hostile){ begin_others, call_other, CHAINS, 1, 1, 0, 0, DISK, false });
    time_beside("256 tables to a further disk of the image, none",
                (struct hostile){ begin_others, call_other, CHAINS / RING, 1, 0, 0, 0, IMAGE_DISK, true });
    time_beside("256 tables to a further disk of the image, 1",
                (struct hostile){ begin_others, call_other, CHAINS, 1, 1, 0, 0, IMAGE_DISK, true });
    return 0;
}
