/*
 * Four boards of sixteen guests, and calls of random kind and value.
 *
 *     stress CALLS SEED                   under a heap that refuses at random; ends with 1 where a block leaks, and
 *                                         where a call but create and destroy comes to the heap
 *     stress CALLS SEED TRACE RECORDS     with ample memory; the first board's events are written as a trace, and
 *                                         what they were answered as records, for vreplay to say the same
 */
#include <inttypes.h>
#include <stdio.h>
#include <stdlib.h>
#include <string.h>

#include "kalyubos.h"

enum { BOARDS = 4, SLOTS = 16, MOST = 65 /* one more than a board has */ };
enum { HALF = 0x4000, GAP = 0x1000, MEMORY_LEN = 2 * HALF + GAP, SECTORS = 64, BUFFER = 2048, MOST_OUTPUT = 1 << 20 };
static const uint64_t MEMORY = 0x80000000;
static const uint32_t OUTLETS[] = { 0, 1, 4095, 1 << 16 };

/* ---- chance: the same numbers from the same seed */

static uint64_t state;

static uint64_t chance(uint64_t below)
{
    state ^= state << 13;
    state ^= state >> 7;
    state ^= state << 17;
    return (state >> 11) % below;
}

/* ---- the heap: it counts what it gave, refuses one growth in `refuses`, and is open to create and destroy alone */

static uint64_t refuses, refused, live;
static bool heap_is_open;

static void need_open(void)
{
    if (!heap_is_open) {
        fprintf(stderr, "a call but create and destroy came to the heap\n");
        exit(1);
    }
}

static bool refuse(void)
{
    need_open();
    bool no = refuses != 0 && chance(refuses) == 0;
    refused += no;
    return no;
}

struct kalyubos_block kalyubos_alloc(size_t size, size_t align)
{
    void *at = refuse() ? NULL : malloc(size != 0 ? size : align);
    live += at != NULL;
    return (struct kalyubos_block){ at != NULL, at };
}

struct kalyubos_block kalyubos_realloc(void *at, size_t kept, size_t size, size_t align)
{
    void *moved = refuse() ? NULL : realloc(at, size != 0 ? size : align);
    (void)kept;
    return (struct kalyubos_block){ moved != NULL, moved };
}

void kalyubos_dealloc(void *at)
{
    need_open();
    live -= at != NULL;
    free(at);
}

/* ---- the boards, and what the first one's events are written to */

static struct kalyubos boards[BOARDS];
static uint8_t image[SECTORS * 512];
static struct kalyubos_slot slots[MOST]; /* those behind the first SLOTS have no sectors; half of them have a gap in memory */
static FILE *trace, *records;
static uint64_t waiting; /* how many bytes of output the last call said to wait, of those that are told */

static void fail(const char *what, uint32_t answer)
{
    fprintf(stderr, "%s: %" PRIu32 ", %s\n", what, answer, kalyubos_answer(answer));
    exit(1);
}

static void put_bytes(FILE *file, const uint8_t *bytes, size_t len)
{
    if (len == 0)
        fputc('-', file);
    for (size_t i = 0; i < len; i++)
        fprintf(file, "%02x", bytes[i]);
}

/* Writes the rest of an event's record, after its reply: the output, and both interrupt words. */
static void end_record(struct kalyubos *board, uint8_t slot)
{
    static uint8_t out[MOST_OUTPUT];
    uint8_t block = 0, console = 0;
    size_t taken = 0;
    kalyubos_take_output(board, slot, out, sizeof out, &taken);
    if (taken != waiting)
        fail("other output waits", (uint32_t)taken);
    waiting = 0;
    kalyubos_interrupts(board, slot, &block, &console);
    fputc(' ', records);
    put_bytes(records, out, taken);
    fprintf(records, " %u %u\n", block, console);
}

static void begin_record(uint8_t slot, uint32_t answer, const char *done)
{
    const char *reply = answer == KALYUBOS_DONE ? done : answer == KALYUBOS_BAD_SLOT ? "badslot"
                        : answer == KALYUBOS_BAD_RANGE ? "badrange" : "noroom";
    fprintf(records, "%x %s", slot, reply);
}

static bool told(const struct kalyubos *board)
{
    return records != NULL && board == &boards[0];
}

/* ---- calls on a board */

/* What waits, as a call told it, is what the calls that ask for it tell. */
static void compare(struct kalyubos *board, uint8_t slot, const struct kalyubos_pending *pending)
{
    uint8_t block, console;
    if (kalyubos_interrupts(board, slot, &block, &console) != KALYUBOS_DONE)
        return;
    if (pending->block != block || pending->console != console)
        fail("other words wait", pending->block << 8 | pending->console);
    if (told(board))
        waiting = pending->output;
}

static void read_register(struct kalyubos *board, uint8_t slot, uint8_t window, uint16_t offset, uint8_t width)
{
    uint32_t value = 0;
    uint32_t answer = kalyubos_read(board, slot, window, offset, width, &value);
    if (!told(board))
        return;
    char text[16];
    snprintf(text, sizeof text, "v:%08" PRIx32, value);
    fprintf(trace, "r %x %c %03x %u\n", slot, window ? 'c' : 'b', offset, width);
    begin_record(slot, answer, text);
    end_record(board, slot);
}

static void write_register(struct kalyubos *board, uint8_t slot, uint8_t window, uint16_t offset, uint8_t width,
                           uint32_t value)
{
    if (width < 4)
        value &= (1u << 8 * width) - 1;
    struct kalyubos_pending pending = {0};
    uint32_t answer = kalyubos_write(board, slot, window, offset, width, value, &pending);
    compare(board, slot, &pending);
    if (!told(board))
        return;
    fprintf(trace, "w %x %c %03x %u %0*" PRIx32 "\n", slot, window ? 'c' : 'b', offset, width, 2 * width, value);
    begin_record(slot, answer, "done");
    end_record(board, slot);
}

static void read_memory(struct kalyubos *board, uint8_t slot, uint64_t addr, size_t len)
{
    uint8_t bytes[BUFFER];
    uint32_t answer = kalyubos_read_memory(board, slot, addr, bytes, len);
    if (!told(board))
        return;
    fprintf(trace, "mr %x %" PRIx64 " %zx\n", slot, addr, len);
    begin_record(slot, answer, "b:");
    if (answer == KALYUBOS_DONE)
        put_bytes(records, bytes, len);
    end_record(board, slot);
}

static void write_memory(struct kalyubos *board, uint8_t slot, uint64_t addr, const void *from, size_t len)
{
    uint32_t answer = kalyubos_write_memory(board, slot, addr, from, len);
    if (!told(board))
        return;
    fprintf(trace, "mw %x %" PRIx64 " ", slot, addr);
    put_bytes(trace, from, len);
    fputc('\n', trace);
    begin_record(slot, answer, "done");
    end_record(board, slot);
}

static void input(struct kalyubos *board, uint8_t slot, const uint8_t *bytes, size_t len)
{
    size_t took = 0;
    struct kalyubos_pending pending = {0};
    uint32_t answer = kalyubos_input(board, slot, bytes, len, &took, &pending);
    compare(board, slot, &pending);
    if (!told(board))
        return;
    char text[32];
    snprintf(text, sizeof text, "took:%zx", took);
    fprintf(trace, "in %x ", slot);
    put_bytes(trace, bytes, len);
    fputc('\n', trace);
    begin_record(slot, answer, text);
    end_record(board, slot);
}

static void resize(struct kalyubos *board, uint8_t slot, uint16_t cols, uint16_t rows)
{
    struct kalyubos_pending pending = {0};
    uint32_t answer = kalyubos_resize(board, slot, cols, rows, &pending);
    compare(board, slot, &pending);
    if (!told(board))
        return;
    fprintf(trace, "sz %x %x %x\n", slot, cols, rows);
    begin_record(slot, answer, "done");
    end_record(board, slot);
}

/* Asks for what no event shows. */
static void look(struct kalyubos *board, uint8_t slot)
{
    uint8_t bytes[BUFFER], block, console;
    size_t len = 0;
    bool disturbed;
    struct kalyubos_counters counters;
    kalyubos_interrupts(board, slot, &block, &console);
    kalyubos_disturbed(board, slot, &disturbed);
    kalyubos_counters(board, slot, &counters);
    if (!told(board))
        kalyubos_take_output(board, slot, bytes, chance(sizeof bytes), &len);
    if (kalyubos_image_len(board, &len) == KALYUBOS_DONE && len != sizeof image)
        fail("image_len", (uint32_t)len);
    kalyubos_read_image(board, chance(sizeof image + 600), bytes, chance(sizeof bytes));
}

/* ---- a guest that is sane enough to be served, and mad enough to find every fault */

static uint64_t area(uint8_t window)
{
    return MEMORY + (window ? HALF + GAP : 0);
}

/* How many chains each driver has put on offer since it brought its window up. */
static uint16_t offered[BOARDS][256][2];

static void bring_up(struct kalyubos *board, uint8_t slot, uint8_t window)
{
    offered[board - boards][slot][window] = 0;
    uint16_t offsets[] = { 0x70, 0x70, 0x70, 0x24, 0x20, 0x70, 0x30, 0x38, 0x80, 0x90, 0xa0, 0x44, 0x70 };
    uint32_t at = (uint32_t)area(window), queue = window ? (uint32_t)chance(2) : 0;
    uint32_t features = chance(4) == 0 ? 5 : 1; /* VERSION_1, and at times RING_PACKED */
    uint32_t values[] = { 0, 1, 3, 1, features, 11, queue, 8, at, at + 0x400, at + 0x800, 1, 15 };
    for (size_t i = 0; i < sizeof values / sizeof *values; i++)
        write_register(board, slot, window, offsets[i], 4, values[i]);
}

static void put(uint8_t *bytes, uint64_t value, int len)
{
    for (int i = 0; i < len; i++)
        bytes[i] = (uint8_t)(value >> 8 * i);
}

static void offer(struct kalyubos *board, uint8_t slot, uint8_t window)
{
    uint8_t table[8 * 16], header[16], ring[4 + 16];
    for (int i = 0; i < 8; i++) {
        put(table + 16 * i, area(window) + (chance(50) ? 0x1000 + 0x100 * chance(16) : chance(1 << 20)), 8);
        put(table + 16 * i + 8, i % 3 == 0 ? 16 : chance(4) ? 512 : chance(600), 4);
        put(table + 16 * i + 12, chance(8) == 0 ? chance(65536) : (window ? 0 : 1u) + (i % 3 ? 2 : 0), 2);
        put(table + 16 * i + 14, (uint64_t)i % 3 == 2 ? chance(8) : (uint64_t)i + 1, 2);
    }
    if (!window && chance(4))
        put(table + 16 * 2 + 8, 1, 4), put(table + 16 * 2 + 12, 2, 2);
    put(header, chance(8) ? chance(2) : chance(32), 4), put(header + 4, 0, 4), put(header + 8, chance(6), 8);
    put(ring, 0, 2), put(ring + 2, ++offered[board - boards][slot][window], 2);
    for (int i = 0; i < 8; i++)
        put(ring + 4 + 2 * i, chance(10) ? 0 : chance(9), 2);
    write_memory(board, slot, area(window), table, sizeof table);
    write_memory(board, slot, area(window) + 0x1000 + 0x100 * chance(16), header, sizeof header);
    write_memory(board, slot, area(window) + 0x400, ring, sizeof ring);
    write_register(board, slot, window, 0x50, 4, window ? (uint32_t)chance(2) : 0);
}

static struct kalyubos_config over_image(size_t count)
{
    struct kalyubos_config config = kalyubos_config_of(slots, count);
    config.image = image;
    config.image_len = sizeof image;
    return config;
}

static void make(struct kalyubos *board)
{
    bool had = board->at != NULL;
    heap_is_open = true;
    size_t count = chance(50) ? SLOTS : chance(MOST + 1), which = chance(MOST);
    bool other_size = chance(50) == 0;
    slots[which].size += other_size;
    struct kalyubos_config config = over_image(count);
    config.cache = chance(50) ? 8 : 0;
    uint32_t answer = kalyubos_create(board, &config);
    slots[which].size -= other_size;
    heap_is_open = false;
    if ((answer == KALYUBOS_BAD_SIZE) != (!had && other_size && which < count))
        fail("create's sizes", answer);
    if ((answer == KALYUBOS_HAS_BOARD) != had || (answer == KALYUBOS_DONE || had) != (board->at != NULL))
        fail("create", answer);
}

static void end(struct kalyubos *board)
{
    heap_is_open = true;
    kalyubos_destroy(board);
    heap_is_open = false;
}

static void call(struct kalyubos *board)
{
    uint8_t slot = chance(100) ? (uint8_t)chance(SLOTS) : (uint8_t)chance(256);
    uint8_t window = (uint8_t)chance(2), width = (uint8_t)(1u << (chance(5) ? 2 : chance(3)));
    uint16_t offset = (uint16_t)(chance(8) ? 4 * chance(0x48) : chance(0x1000));
    uint8_t bytes[BUFFER];
    switch (chance(16)) {
    case 0: case 1: case 2: read_register(board, slot, window, offset, width); break;
    case 3: write_register(board, slot, window, offset, width, (uint32_t)chance(chance(2) ? 4 : 1ull << 32)); break;
    case 4: case 5: case 6: case 7: offer(board, slot, window); break;
    case 8: read_memory(board, slot, MEMORY + chance(MEMORY_LEN), chance(BUFFER)); break;
    case 9:
        for (size_t i = 0; i < 64; i++)
            bytes[i] = (uint8_t)chance(256);
        write_memory(board, slot, MEMORY + chance(MEMORY_LEN), bytes, chance(64));
        break;
    case 10:
        memset(bytes, 'a' + (int)chance(26), sizeof bytes);
        input(board, slot, bytes, chance(chance(20) ? 40 : BUFFER));
        break;
    case 11: resize(board, slot, (uint16_t)chance(200), (uint16_t)chance(100)); break;
    case 12: case 13: look(board, slot); break;
    case 14: bring_up(board, slot, window); break;
    default: offer(board, slot, window);
    }
    if (records == NULL && chance(2000) == 0)
        chance(2) ? end(board) : make(board);
}

static void open_files(const char *trace_path, const char *records_path)
{
    trace = fopen(trace_path, "w");
    records = fopen(records_path, "w");
    if (trace == NULL || records == NULL)
        fail("files", 0);
    for (int i = 0; i < SLOTS; i++)
        slots[i].outlet = MOST_OUTPUT;
    fprintf(trace, "kalyubos 1\ncache 8\n");
    for (int i = 0; i < SLOTS; i++) {
        for (size_t j = 0; j < KALYUBOS_REGIONS && slots[i].regions[j].len != 0; j++)
            fprintf(trace, "%s%" PRIx64 "+%" PRIx64, j == 0 ? "slot " : ",", slots[i].regions[j].base, slots[i].regions[j].len);
        fprintf(trace, " image %" PRIx64 " %" PRIx64 " %s %x %x ", slots[i].start, slots[i].count,
                slots[i].read_only ? "ro" : "rw", slots[i].cols, slots[i].rows);
        put_bytes(trace, slots[i].identity, sizeof slots[i].identity);
        fputc('\n', trace);
    }
}

int main(int argc, char **argv)
{
    uint64_t calls = argc > 1 ? strtoull(argv[1], NULL, 10) : 1000;
    state = 0x9e3779b97f4a7c15 + (argc > 2 ? strtoull(argv[2], NULL, 10) : 0);
    for (int i = 0; i < MOST; i++)
        slots[i] = (struct kalyubos_slot){
            .size = sizeof *slots,
            .regions = { { MEMORY, i % 2 ? MEMORY_LEN : HALF }, { MEMORY + HALF + GAP, i % 2 ? 0 : HALF } },
            .start = i < SLOTS ? 4 * (uint64_t)i : 0, .count = i < SLOTS ? 4 : 0, .cols = 80, .rows = 25,
            .outlet = OUTLETS[i % 4], .read_only = i % 5 == 4, .identity = { 's', (uint8_t)i, 0xff, [19] = '!' },
        };
    if (argc > 4)
        open_files(argv[3], argv[4]);
    heap_is_open = true;
    for (int i = 0; i < BOARDS; i++) {
        struct kalyubos_config config = over_image(SLOTS);
        config.cache = 8;
        if (kalyubos_create(&boards[i], &config) != KALYUBOS_DONE)
            fail("first create", 0);
    }
    heap_is_open = false;
    refuses = records == NULL ? 50 : 0;
    for (uint64_t i = 0; i < calls; i++) {
        struct kalyubos *board = &boards[chance(BOARDS)];
        if (records == NULL && board->at == NULL)
            make(board);
        call(board);
    }
    for (int i = 0; i < BOARDS; i++)
        end(&boards[i]);
    printf("%" PRIu64 " turns, %" PRIu64 " growths refused, %" PRIu64 " blocks left\n", calls, refused, live);
    return live != 0;
}
