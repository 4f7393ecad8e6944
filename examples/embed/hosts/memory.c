/*
 * Memory in place: what a guest's CPUs store there the device reads, and what the device writes they load, at both ends
 * of a region and across a gap, while another guest's stays as it was. And what a write tells to wait.
 */
#include <stdio.h>
#include <stdlib.h>
#include <string.h>

#include "kalyubos.h"

enum { PAGE = 4096, MEMORY_LEN = 2 * PAGE, GUESTS = 2, SECTORS = 2, SECTOR_LEN = 512 };
static const uint64_t MEMORY = 0x80000000, SECOND = 0x100000000; /* a guest's two regions, of MEMORY_LEN each */

/* Where the driver's areas lie: the request's header at the first byte, its data at the last one. */
enum { HEADER = 0, STATUS = 16, TABLE = 0x100, AVAIL = 0x200, USED = 0x300, DATA = MEMORY_LEN - SECTOR_LEN };
enum { IN = 0, OUT = 1, NEXT = 1, WRITE = 2, CHAINS = 4 };

static struct kalyubos board;
static uint8_t *memory[GUESTS], *second[GUESTS];
static uint16_t offered;

static void need(bool holds, const char *what)
{
    if (!holds) {
        fprintf(stderr, "memory: %s\n", what);
        exit(1);
    }
}

static struct kalyubos_pending set(uint8_t slot, uint8_t window, uint16_t offset, uint32_t value)
{
    struct kalyubos_pending pending;
    need(kalyubos_write(&board, slot, window, offset, 4, value, &pending) == KALYUBOS_DONE, "write");
    return pending;
}

static void bring_up(uint8_t slot)
{
    const uint32_t at = (uint32_t)MEMORY;
    const uint32_t steps[][2] = { { 0x70, 0 }, { 0x70, 1 }, { 0x70, 3 }, { 0x24, 1 }, { 0x20, 1 }, { 0x70, 11 },
                                  { 0x38, CHAINS }, { 0x80, at + TABLE }, { 0x90, at + AVAIL }, { 0xa0, at + USED },
                                  { 0x44, 1 }, { 0x70, 15 } };
    for (size_t i = 0; i < sizeof steps / sizeof *steps; i++)
        set(slot, KALYUBOS_BLOCK, (uint16_t)steps[i][0], steps[i][1]);
}

/* A request of one sector to or from `data`, which the guest's CPUs put into its memory. This host is little-endian, as the
 * rings are. */
static struct kalyubos_pending request(uint8_t slot, uint32_t type, uint64_t sector, uint64_t data)
{
    struct { uint32_t type, reserved; uint64_t sector; } header = { type, 0, sector };
    struct { uint64_t addr; uint32_t len; uint16_t flags, next; } table[3] = {
        { MEMORY + HEADER, sizeof header, NEXT, 1 },
        { data, SECTOR_LEN, NEXT | (type == IN ? WRITE : 0), 2 },
        { MEMORY + STATUS, 1, WRITE, 0 },
    };
    offered++;
    memcpy(memory[slot] + HEADER, &header, sizeof header);
    memcpy(memory[slot] + TABLE, table, sizeof table);
    memcpy(memory[slot] + AVAIL + 2, &offered, sizeof offered);
    memory[slot][STATUS] = 0xff;
    return set(slot, KALYUBOS_BLOCK, 0x50, 0);
}

/* ---- what is tried */

static void lend(void)
{
    uint8_t *none = NULL;
    size_t len = 7;
    need(kalyubos_memory(&board, GUESTS, MEMORY, &none, &len) == KALYUBOS_BAD_SLOT, "a slot that there isn't");
    need(none == NULL && len == 7, "told of a slot that there isn't");
    for (uint8_t slot = 0; slot < GUESTS; slot++) {
        need(kalyubos_memory(&board, slot, MEMORY, &memory[slot], &len) == KALYUBOS_DONE, "memory");
        need(len == MEMORY_LEN, "the length");
        need(kalyubos_memory(&board, slot, SECOND, &second[slot], &len) == KALYUBOS_DONE, "the second region");
        for (size_t i = 0; i < len; i++)
            need(memory[slot][i] == 0 && second[slot][i] == 0, "a new memory's bytes");
        printf("guest %u: two regions of %zu bytes, from a page on: %d\n", slot, len,
               (uintptr_t)memory[slot] % PAGE == 0 && (uintptr_t)second[slot] % PAGE == 0);
    }
}

/* From within a region there is its rest, and from a gap nothing. */
static void ask(void)
{
    static const uint64_t outside[] = { MEMORY - 1, MEMORY + MEMORY_LEN, SECOND - 1, SECOND + MEMORY_LEN, UINT64_MAX };
    uint8_t *at = NULL;
    size_t len = 7;
    for (size_t i = 0; i < sizeof outside / sizeof *outside; i++)
        need(kalyubos_memory(&board, 0, outside[i], &at, &len) == KALYUBOS_BAD_RANGE && at == NULL && len == 7, "no region");
    need(kalyubos_memory(&board, 0, SECOND + PAGE + 1, &at, &len) == KALYUBOS_DONE, "the rest of a region");
    need(at == second[0] + PAGE + 1 && len == PAGE - 1, "where the rest of a region lies");
    puts("outside the regions: nothing is lent");
}

/* Bytes at both ends, written one way and read the other. */
static void copy(void)
{
    const struct { uint64_t addr; uint8_t *own, *other; } ends[] = {
        { MEMORY, memory[0], memory[1] }, { MEMORY + MEMORY_LEN - 1, memory[0] + MEMORY_LEN - 1, memory[1] + MEMORY_LEN - 1 },
        { SECOND, second[0], second[1] }, { SECOND + MEMORY_LEN - 1, second[0] + MEMORY_LEN - 1, second[1] + MEMORY_LEN - 1 },
    };
    for (size_t i = 0; i < sizeof ends / sizeof *ends; i++) {
        uint8_t seen = 0, mark = (uint8_t)(0x41 + i);
        *ends[i].own = mark;
        need(kalyubos_read_memory(&board, 0, ends[i].addr, &seen, 1) == KALYUBOS_DONE && seen == mark, "a load");
        need(kalyubos_write_memory(&board, 0, ends[i].addr, &(uint8_t){ 0x7a }, 1) == KALYUBOS_DONE, "a store");
        need(*ends[i].own == 0x7a && *ends[i].other == 0, "a byte in place");
    }
    need(kalyubos_read_memory(&board, 0, MEMORY + MEMORY_LEN - 1, (uint8_t[2]){ 0 }, 2) == KALYUBOS_BAD_RANGE, "into the gap");
    need(kalyubos_read_memory(&board, 0, SECOND - 1, (uint8_t[2]){ 0 }, 2) == KALYUBOS_BAD_RANGE, "out of the gap");
    puts("both ends of both regions: read and written in place");
}

/* The device reads what was written in place, and writes what is read there. */
static void serve(void)
{
    bring_up(0);
    memset(memory[0] + DATA, 0x6b, SECTOR_LEN);
    struct kalyubos_pending pending = request(0, OUT, 1, MEMORY + DATA);
    printf("OUT: status %u, words %u and %u\n", memory[0][STATUS], (unsigned)pending.block, (unsigned)pending.console);
    pending = set(0, KALYUBOS_BLOCK, 0x64, 1);
    printf("acknowledged: words %u and %u\n", (unsigned)pending.block, (unsigned)pending.console);
    pending = request(0, IN, 1, SECOND + DATA);
    printf("IN, into the second region: status %u, words %u and %u, first byte %02x, last byte %02x\n", memory[0][STATUS],
           (unsigned)pending.block, (unsigned)pending.console, second[0][DATA], second[0][MEMORY_LEN - 1]);
    for (size_t i = 0; i < MEMORY_LEN; i++)
        need(memory[1][i] == 0 && second[1][i] == 0, "the other guest's memory");
    puts("the other guest's memory: as it was");
}

/* A buffer that ends behind its region lies outside: the device needs a reset (2.1.2), and writes nothing. */
static void cross(void)
{
    uint8_t *end = memory[1] + MEMORY_LEN - 1;
    uint32_t status = 0;
    offered = 0;
    bring_up(1);
    request(1, IN, 1, MEMORY + MEMORY_LEN - 1);
    need(kalyubos_read(&board, 1, KALYUBOS_BLOCK, 0x70, 4, &status) == KALYUBOS_DONE, "a status");
    printf("a buffer across the gap: Status %02x, no byte of it written: %d\n", (unsigned)status,
           *end == 0 && memory[1][STATUS] == 0xff);
}

static void speak(void)
{
    set(1, KALYUBOS_CONSOLE, 0x108, 'h'); /* an emergency write */
    struct kalyubos_pending pending = set(1, KALYUBOS_CONSOLE, 0x108, 'i');
    printf("console: %u bytes wait\n", (unsigned)pending.output);
}

int main(void)
{
    static uint8_t image[GUESTS * SECTORS * SECTOR_LEN];
    struct kalyubos_slot slots[GUESTS] = {
        { .size = sizeof *slots, .regions = { { MEMORY, MEMORY_LEN }, { SECOND, MEMORY_LEN } }, .count = SECTORS, .outlet = 8 },
        { .size = sizeof *slots, .regions = { { MEMORY, MEMORY_LEN }, { SECOND, MEMORY_LEN } }, .start = SECTORS,
          .count = SECTORS, .outlet = 8 },
    };
    need(kalyubos_version() == KALYUBOS_VERSION, "the library is of another version than the header");
    struct kalyubos_config config = kalyubos_config_of(slots, GUESTS);
    config.image = image;
    config.image_len = sizeof image;
    need(kalyubos_create(&board, &config) == KALYUBOS_DONE, "create");
    lend();
    ask();
    copy();
    serve();
    cross();
    speak();

    uint8_t *again = NULL;
    size_t len = 0;
    need(kalyubos_memory(&board, 0, MEMORY, &again, &len) == KALYUBOS_DONE && again == memory[0], "the memory moved");
    need(kalyubos_destroy(&board) == KALYUBOS_DONE, "destroy while lent");
    need(kalyubos_memory(&board, 0, MEMORY, &again, &len) == KALYUBOS_NO_BOARD, "a memory without a board");
    puts("destroyed while lent");
    return 0;
}
