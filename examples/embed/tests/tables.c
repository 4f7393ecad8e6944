/*
 * What a budget does to a console: one notification puts 256 chains on offer, each an indirect table of 256 buffers of
 * one byte. Without a budget the call puts all 65536 bytes out. With one it puts some chains out and pauses, also where
 * the host serves the guest's disk and has an operation of it in flight; and another guest is served meanwhile.
 */
#include <stdio.h>
#include <string.h>

#include "shut_heap.h"

enum { RING = 256, TEXT_LEN = RING * RING, MEMORY_LEN = 0x200000, TALKER = 0, OTHER = 1, GUESTS = 2 };
enum { TABLE = 0x10000, AVAILABLE = 0x12000, USED = 0x13000, TEXT = 0x20000, INDIRECT = 0x100000 };
enum { DISK = 0x1000 /* its table; its rings, its request and the data lie behind it */ };
enum { NEXT = 1, WRITE = 2, IN_TABLE = 4, NOTIFY = 0x050, STATUS = 0x070, TRANSMIT = 1 };
#define MEMORY 0x80000000ull

static struct kalyubos board;
static uint8_t text[TEXT_LEN];

struct descriptor {
    uint64_t addr;
    uint32_t len;
    uint16_t flags, next;
};

static uint32_t set(uint8_t slot, uint8_t window, uint16_t offset, uint32_t value)
{
    struct kalyubos_pending pending;
    return kalyubos_write(&board, slot, window, offset, 4, value, &pending);
}

static void store(uint8_t slot, uint64_t offset, const void *from, size_t len)
{
    need(kalyubos_write_memory(&board, slot, MEMORY + offset, from, len) == KALYUBOS_DONE, "a store to memory", offset);
}

/* Brings up a queue of 256, with INDIRECT_DESC (3.1.1, 4.2.3.2). */
static void bring_up(uint8_t slot, uint8_t window, uint32_t queue, uint32_t table)
{
    const uint32_t at = (uint32_t)MEMORY + table;
    const uint32_t steps[][2] = { { STATUS, 0 }, { STATUS, 3 }, { 0x24, 0 }, { 0x20, 1 << 28 }, { 0x24, 1 },
                                  { 0x20, 1 }, { STATUS, 11 }, { 0x30, queue }, { 0x38, RING }, { 0x80, at },
                                  { 0x90, at + AVAILABLE - TABLE }, { 0xa0, at + USED - TABLE }, { 0x44, 1 },
                                  { STATUS, 15 } };
    for (size_t i = 0; i < sizeof steps / sizeof *steps; i++)
        need(set(slot, window, (uint16_t)steps[i][0], steps[i][1]) == KALYUBOS_DONE, "a driver's step", i);
}

/* Puts the text on offer to the console: a chain for each 256 bytes of it, and a buffer for each byte. */
static void offer_text(void)
{
    static struct descriptor table[RING], indirect[RING][RING];
    static uint16_t ring[2 + RING] = { 0, RING };
    bring_up(TALKER, KALYUBOS_CONSOLE, TRANSMIT, TABLE);
    for (uint16_t i = 0; i < RING; i++) {
        uint64_t its_table = MEMORY + INDIRECT + i * sizeof *indirect, its_text = MEMORY + TEXT + i * RING;
        table[i] = (struct descriptor){ its_table, sizeof *indirect, IN_TABLE, 0 };
        ring[2 + i] = i;
        for (uint16_t j = 0; j < RING; j++)
            indirect[i][j] = (struct descriptor){ its_text + j, 1, j + 1 < RING ? NEXT : 0, j + 1 };
    }
    store(TALKER, TABLE, table, sizeof table);
    store(TALKER, INDIRECT, indirect, sizeof indirect);
    store(TALKER, AVAILABLE, ring, sizeof ring);
    store(TALKER, TEXT, text, sizeof text);
}

/* ---- a disk's request, which a budget doesn't divide */

static const struct kalyubos_slot *slots;

static void ask_disk(uint8_t slot)
{
    static const struct descriptor chain[] = { { MEMORY + DISK + 0x800, 16, NEXT, 1 },
                                               { MEMORY + DISK + 0x1000, 512, NEXT | WRITE, 2 },
                                               { MEMORY + DISK + 0x810, 1, WRITE, 0 } };
    static const uint16_t ring[] = { 0, 1, 0 };
    bring_up(slot, KALYUBOS_BLOCK, 0, DISK);
    store(slot, DISK, chain, sizeof chain);
    store(slot, DISK + AVAILABLE - TABLE, ring, sizeof ring);
    need(set(slot, KALYUBOS_BLOCK, NOTIFY, 0) == (slots[slot].hosted ? KALYUBOS_IO : KALYUBOS_DONE), "a read", slot);
}

static uint32_t operation_of(uint8_t slot)
{
    struct kalyubos_operation operation;
    struct kalyubos_run run;
    return kalyubos_operation(&board, slot, KALYUBOS_BLOCK, 0, &operation, &run, 1);
}

static void complete(uint8_t slot)
{
    struct kalyubos_pending pending;
    uint8_t status = 0xff;
    if (slots[slot].hosted)
        need(kalyubos_completed(&board, slot, KALYUBOS_BLOCK, 0, false, &pending) == KALYUBOS_DONE, "a completion", slot);
    need(kalyubos_read_memory(&board, slot, MEMORY + DISK + 0x810, &status, 1) == KALYUBOS_DONE, "a load", slot);
    need(status == 0, "a status", status);
}

/* ---- the text goes out in pieces */

/* The console is paused: its guest waits, with what its disk has in flight, and the other guest is served. */
static void serve_other(void)
{
    struct kalyubos_pending pending;
    bool hosted = slots[TALKER].hosted;
    uint64_t tags = UINT64_MAX;
    uint32_t value = 0, told = operation_of(TALKER), ended = kalyubos_completed(&board, TALKER, KALYUBOS_BLOCK, 0, false, &pending);
    need(kalyubos_in_flight(&board, TALKER, KALYUBOS_BLOCK, &tags) == KALYUBOS_DONE && tags == hosted,
         "what is in flight in a pause", tags);
    need(kalyubos_read(&board, TALKER, KALYUBOS_BLOCK, STATUS, 4, &value) == KALYUBOS_BUSY, "a read in a pause", value);
    need(told == (hosted ? KALYUBOS_DONE : KALYUBOS_IDLE), "an operation in a pause", told);
    need(ended == (hosted ? KALYUBOS_BUSY : KALYUBOS_IDLE), "a completion in a pause", ended);
    need(kalyubos_drop(&board, TALKER, KALYUBOS_BLOCK, &pending) == KALYUBOS_BUSY, "a drop in a pause", TALKER);
    need(kalyubos_hold(&board, TALKER, KALYUBOS_BLOCK, &pending) == KALYUBOS_BUSY, "a hold in a pause", TALKER);
    need(kalyubos_release(&board, TALKER, KALYUBOS_BLOCK, &pending) == KALYUBOS_BUSY, "a release in a pause", TALKER);
    ask_disk(OTHER);
    complete(OTHER);
}

/* How many calls the text takes, each of which puts so many chains out at most. */
static uint64_t talk(uint64_t chains)
{
    struct kalyubos_pending pending = { 0 };
    uint32_t answer = kalyubos_write(&board, TALKER, KALYUBOS_CONSOLE, NOTIFY, 4, TRANSMIT, &pending);
    uint64_t calls = 1;
    for (; answer == KALYUBOS_MORE; calls++) {
        need(pending.output == calls * chains * RING, "what was put out before a pause", pending.output);
        serve_other();
        answer = kalyubos_go_on(&board, TALKER, &pending);
    }
    need(answer == KALYUBOS_DONE && pending.output == TEXT_LEN, "the end of the text", pending.output);
    return calls;
}

static void check_text(void)
{
    static uint8_t out[TEXT_LEN + 1];
    size_t taken = 0;
    need(kalyubos_take_output(&board, TALKER, out, sizeof out, &taken) == KALYUBOS_DONE, "take_output", taken);
    need(taken == TEXT_LEN && memcmp(out, text, TEXT_LEN) == 0, "the text", taken);
}

/* ---- boards of both kinds of disk, with budgets */

static const struct {
    uint32_t chains;
    uint64_t bytes, a_call, calls; /* so many chains a call, in so many calls */
} BUDGETS[] = {
    { 0, 0, RING, 1 }, { 1, 0, 1, 256 }, { 3, 0, 3, 86 }, { 0, 1, 1, 256 }, { 0, 257, 2, 128 }, { 2, 256, 1, 256 },
};

static void check(struct kalyubos_config config, uint64_t a_call, uint64_t calls)
{
    slots = config.slots;
    make(&board, config);
    ask_disk(TALKER);
    offer_text();
    need(talk(a_call) == calls, "so many calls", calls);
    check_text();
    complete(TALKER);
    end(&board);
}

int main(void)
{
    static const uint8_t image[GUESTS * 512];
    struct kalyubos_slot described[GUESTS];
    for (size_t i = 0; i < TEXT_LEN; i++)
        text[i] = (uint8_t)(i % 251);
    for (int hosts = 0; hosts < 1 << GUESTS; hosts++)
        for (size_t i = 0; i < sizeof BUDGETS / sizeof *BUDGETS; i++) {
            for (int slot = 0; slot < GUESTS; slot++)
                described[slot] = (struct kalyubos_slot){
                    .size = sizeof *described, .regions = { { MEMORY, MEMORY_LEN } }, .start = (uint64_t)slot, .count = 1,
                    .outlet = TEXT_LEN, .hosted = hosts >> slot & 1,
                };
            struct kalyubos_config config = over_image(described, GUESTS, image, sizeof image);
            config.chains = BUDGETS[i].chains;
            config.bytes = BUDGETS[i].bytes;
            check(config, BUDGETS[i].a_call, BUDGETS[i].calls);
        }
    puts("tables: 65536 bytes in 256 tables, in one call and in up to 256, whoever serves the disks of both guests");
    return 0;
}
