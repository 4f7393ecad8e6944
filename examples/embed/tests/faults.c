/*
 * Why a window asks for a reset: each fault of a split and of a packed queue, in the ring and in an indirect table, and
 * the queue, the head and the place that kalyubos_last_fault then tells. All numbers are worked out from what the
 * driver writes.
 */
#include <stdio.h>
#include <string.h>

#include "shut_heap.h"

/* Where all lies in a guest's 64 MiB. A chain of 64 buffers over all of it has 2^32 bytes, one too many. */
enum { MEMORY_LEN = 64 << 20, TABLE = 0x1000, AVAILABLE = 0x2000, USED = 0x3000, INNER = 0x4000, DATA = 0x6000 };
enum { NOTIFY = 0x050, STATUS = 0x070, TRANSMIT = 1, NEXT = 1, WRITE = 2, INDIRECT = 4, QUEUE = 64, SNAPSHOT = 0x400 };
#define AT(offset) (0x80000000u + (offset))
#define OUTSIDE AT(MEMORY_LEN)

/*
 * So many chains are used before the bad one. In a split queue that one's entry is 27, since 91 = 64 + 27; in a packed
 * one its list begins at position 27, in the second round, whose wrap counter is 0.
 */
enum { BEFORE = 91, POSITION = 27, HEAD = 5 };
enum { IS_AVAILABLE = 1 << 7, IS_USED = 1 << 15 };

enum layout { SPLIT, PACKED };

/* A descriptor of a row. Where `next` is 0 it goes on with the one behind it, if its list has one. */
struct descriptor {
    uint64_t addr;
    uint32_t len;
    uint16_t flags, next;
};

/* Some descriptors one behind another: two or one, or the first so often. */
struct list {
    struct descriptor first, second;
    uint16_t times;
};

/* A bad chain: its head and how many are on offer, of a split queue; its list, its inner table, and what is told. */
struct row {
    const char *name;
    enum layout layout;
    uint16_t head, offered;
    bool lacks_indirect;
    struct list ring, table;
    struct kalyubos_fault told;
};

#define TOLD(kind, head) .told = { KALYUBOS_FAULT_##kind, TRANSMIT, head, BEFORE }
#define BYTE { AT(DATA), 1, 0, 0 }
#define BYTE_TO(next) { AT(DATA), 1, NEXT, next }
#define ALL_MEMORY { AT(0), MEMORY_LEN, NEXT, 0 }
#define INNER_OF(len, flags) { AT(INNER), len, INDIRECT | (flags), 0 }

static const struct row SPLIT_ROWS[] = {
    { "more chains than descriptors", SPLIT, HEAD, QUEUE + 1, .ring = { BYTE }, TOLD(JUMP, KALYUBOS_NO_HEAD) },
    { "a head outside the table", SPLIT, QUEUE, 1, .ring = { BYTE }, TOLD(INDEX, QUEUE) },
    { "a next outside the table", SPLIT, HEAD, 1, .ring = { BYTE_TO(QUEUE) }, TOLD(INDEX, HEAD) },
    { "a circle", SPLIT, HEAD, 1, .ring = { BYTE_TO(0), BYTE_TO(HEAD) }, TOLD(LOOP, HEAD) },
    { "a next outside an inner table", SPLIT, HEAD, 1, .ring = { INNER_OF(32, 0) }, .table = { BYTE_TO(2) },
      TOLD(INDEX, HEAD) },
    { "a circle in an inner table", SPLIT, HEAD, 1, .ring = { INNER_OF(16, 0) }, .table = { BYTE_TO(0) },
      TOLD(LOOP, HEAD) },
    { "257 buffers", SPLIT, HEAD, 1, .ring = { BYTE_TO(0), INNER_OF(4096, 0) }, .table = { BYTE_TO(0), .times = 256 },
      TOLD(TOO_MANY, HEAD) },
    { "a table of 24 bytes", SPLIT, HEAD, 1, .ring = { INNER_OF(24, 0) }, TOLD(TABLE, HEAD) },
    { "a table in a table", SPLIT, HEAD, 1, .ring = { INNER_OF(16, 0) }, .table = { INNER_OF(16, 0) },
      TOLD(NESTED, HEAD) },
    { "a table and a next", SPLIT, HEAD, 1, .ring = { INNER_OF(16, NEXT) }, .table = { BYTE }, TOLD(JOINED, HEAD) },
    { "a table without its feature", SPLIT, HEAD, 1, .lacks_indirect = true, .ring = { INNER_OF(16, 0) },
      .table = { BYTE }, TOLD(NO_INDIRECT, HEAD) },
    { "a buffer over the end of memory", SPLIT, HEAD, 1, .ring = { { OUTSIDE - 1, 2, 0, 0 } }, TOLD(RANGE, HEAD) },
    { "a table outside memory", SPLIT, HEAD, 1, .ring = { { OUTSIDE, 16, INDIRECT, 0 } }, TOLD(RANGE, HEAD) },
    { "a buffer of a table outside memory", SPLIT, HEAD, 1, .ring = { INNER_OF(16, 0) },
      .table = { { OUTSIDE, 1, 0, 0 } }, TOLD(RANGE, HEAD) },
    { "2^32 bytes", SPLIT, HEAD, 1, .ring = { ALL_MEMORY, .times = QUEUE }, TOLD(TOO_LONG, HEAD) },
    { "2^32 bytes in a table", SPLIT, HEAD, 1, .ring = { INNER_OF(16 * QUEUE, 0) },
      .table = { ALL_MEMORY, .times = QUEUE }, TOLD(TOO_LONG, HEAD) },
};

/* A packed list has no index of a descriptor, its inner table no flags that are read, and 256 buffers at most. */
static const struct row PACKED_ROWS[] = {
    { "a list round the ring", PACKED, .ring = { BYTE_TO(0), .times = QUEUE }, TOLD(LOOP, POSITION) },
    { "a table of no bytes", PACKED, .ring = { INNER_OF(0, 0) }, TOLD(TABLE, POSITION) },
    { "a table of 4112 bytes", PACKED, .ring = { INNER_OF(4112, 0) }, TOLD(TABLE, POSITION) },
    { "a table and a next", PACKED, .ring = { INNER_OF(16, NEXT) }, .table = { BYTE }, TOLD(JOINED, POSITION) },
    { "a table behind a buffer", PACKED, .ring = { BYTE_TO(0), INNER_OF(16, 0) }, .table = { BYTE },
      TOLD(JOINED, POSITION) },
    { "a table without its feature", PACKED, .lacks_indirect = true, .ring = { INNER_OF(16, 0) }, .table = { BYTE },
      TOLD(NO_INDIRECT, POSITION) },
    { "a buffer over the end of memory", PACKED, .ring = { { OUTSIDE - 1, 2, 0, 0 } }, TOLD(RANGE, POSITION) },
    { "a table outside memory", PACKED, .ring = { { OUTSIDE, 16, INDIRECT, 0 } }, TOLD(RANGE, POSITION) },
    { "a buffer of a table outside memory", PACKED, .ring = { INNER_OF(16, 0) }, .table = { { OUTSIDE, 1, 0, 0 } },
      TOLD(RANGE, POSITION) },
    { "2^32 bytes", PACKED, .ring = { ALL_MEMORY, .times = QUEUE }, TOLD(TOO_LONG, POSITION) },
    { "2^32 bytes in a table", PACKED, .ring = { INNER_OF(16 * QUEUE, 0) }, .table = { ALL_MEMORY, .times = QUEUE },
      TOLD(TOO_LONG, POSITION) },
};

static const struct kalyubos_fault NONE = { KALYUBOS_NO_FAULT, 0, KALYUBOS_NO_HEAD, 0 };
static const struct kalyubos_slot slots[] = {
    { .size = sizeof *slots, .regions = { { 0x80000000, MEMORY_LEN } }, .count = 1, .outlet = 128 },
    { .size = sizeof *slots, .regions = { { 0x80000000, MEMORY_LEN } }, .start = 1, .count = 1, .outlet = 128 },
};
static uint8_t image[1024];
static struct kalyubos board;
static struct kalyubos_pending pending;

static uint32_t set(uint8_t slot, uint8_t window, uint16_t offset, uint32_t value)
{
    return kalyubos_write(&board, slot, window, offset, 4, value, &pending);
}

static void store(uint8_t slot, uint64_t offset, const void *from, size_t len)
{
    need(kalyubos_write_memory(&board, slot, AT(offset), from, len) == KALYUBOS_DONE, "a store to memory", offset);
}

static void tells(uint8_t slot, uint8_t window, struct kalyubos_fault wanted, const char *what)
{
    struct kalyubos_fault found;
    need(kalyubos_last_fault(&board, slot, window, &found) == KALYUBOS_DONE, what, slot);
    bool is_it = memcmp(&found, &wanted, sizeof found) == 0;
    if (!is_it)
        fprintf(stderr, "queue %u, place %u, head %u: %s\n", found.queue, found.place, found.head,
                kalyubos_fault_text(found.kind));
    need(is_it, what, slot);
}

/* ---- what a driver does */

/* Resets a window, and makes its queue of 64 ready (3.1.1, 4.2.3.2). */
static void bring_up(uint8_t slot, uint8_t window, uint32_t queue, enum layout layout, bool indirect)
{
    const uint32_t steps[][2] = { { STATUS, 0 }, { STATUS, 3 }, { 0x24, 1 }, { 0x20, layout == PACKED ? 5 : 1 },
                                  { 0x24, 0 }, { 0x20, indirect ? 1 << 28 : 0 }, { STATUS, 11 }, { 0x30, queue },
                                  { 0x38, QUEUE }, { 0x80, AT(TABLE) }, { 0x90, AT(AVAILABLE) }, { 0xa0, AT(USED) },
                                  { 0x44, 1 }, { STATUS, 15 } };
    static const uint8_t zeros[DATA];
    store(slot, 0, zeros, sizeof zeros);
    for (size_t i = 0; i < sizeof steps / sizeof *steps; i++)
        need(set(slot, window, (uint16_t)steps[i][0], steps[i][1]) == KALYUBOS_DONE, "a driver's step", i);
}

/* A descriptor at an index of a table (2.7.5), or of a ring (2.8.13), with these flags besides. */
static void put(enum layout layout, uint8_t slot, uint64_t table, uint16_t index, struct descriptor from,
                uint16_t flags)
{
    const uint16_t id = 7;
    uint8_t bytes[16];
    flags |= from.flags;
    memcpy(bytes, &from.addr, 8);
    memcpy(bytes + 8, &from.len, 4);
    memcpy(bytes + 12, layout == SPLIT ? &flags : &id, 2);
    memcpy(bytes + 14, layout == SPLIT ? &from.next : &flags, 2);
    store(slot, table + 16 * index, bytes, sizeof bytes);
}

/* A list from an index of a table of a size on. The first descriptor of a packed ring is made available. */
static void put_list(enum layout layout, uint64_t table, uint16_t size, uint16_t first, struct list list)
{
    uint16_t count = list.times != 0 ? list.times : list.second.addr != 0 ? 2 : 1;
    for (uint16_t i = 0; i < count; i++) {
        uint16_t index = (uint16_t)(first + i) % size;
        struct descriptor one = i == 1 && list.times == 0 ? list.second : list.first;
        if (one.next == 0 && count > 1)
            one.next = (uint16_t)(index + 1) % size;
        put(layout, 0, table, index, one, layout == PACKED && table == TABLE && i == 0 ? IS_USED : 0);
    }
}

static void notify(uint8_t slot, uint8_t window, uint32_t queue)
{
    need(set(slot, window, NOTIFY, queue) == KALYUBOS_DONE, "a notification", queue);
}

/* Offers the chain of descriptor 0 until so many were offered, where `idx` says how many (2.7.6). */
static void offer_split(uint8_t slot, uint16_t idx)
{
    const uint16_t front[] = { 0, idx };
    store(slot, AVAILABLE, front, sizeof front);
}

/* Puts out a byte by each of 91 chains, of which 64 find room at once. */
static void talk(enum layout layout)
{
    uint8_t text[BEFORE + 1];
    size_t taken;
    for (uint16_t i = 0; i < BEFORE; i++) {
        uint16_t available = i < QUEUE ? IS_AVAILABLE : IS_USED;
        put(layout, 0, TABLE, i % QUEUE, (struct descriptor)BYTE, layout == PACKED ? available : 0);
        if (i != QUEUE - 1 && i != BEFORE - 1)
            continue;
        if (layout == SPLIT)
            offer_split(0, i + 1);
        notify(0, KALYUBOS_CONSOLE, TRANSMIT);
    }
    need(kalyubos_take_output(&board, 0, text, sizeof text, &taken) == KALYUBOS_DONE, "output", taken);
    need(taken == BEFORE, "91 chains", taken);
}

/* The bad chain behind them. */
static void fail(const struct row *row)
{
    put_list(row->layout, TABLE, QUEUE, row->layout == PACKED ? POSITION : HEAD, row->ring);
    put_list(row->layout, INNER, 256, 0, row->table);
    if (row->layout == SPLIT) {
        store(0, AVAILABLE + 4 + 2 * POSITION, &row->head, sizeof row->head);
        offer_split(0, BEFORE + row->offered);
    }
    notify(0, KALYUBOS_CONSOLE, TRANSMIT);
}

static bool needs_reset(uint8_t slot, uint8_t window)
{
    uint32_t status;
    need(kalyubos_read(&board, slot, window, STATUS, 4, &status) == KALYUBOS_DONE, "Status", window);
    return status & 0x40;
}

/* ---- what is told of it */

/* Each row on one board: what is told stays through the next driver's reset and its good chains. The last is told. */
static struct kalyubos_fault check_rows(const struct row *rows, size_t count, struct kalyubos_fault before)
{
    for (size_t i = 0; i < count; i++) {
        const struct row *row = &rows[i];
        bring_up(0, KALYUBOS_CONSOLE, TRANSMIT, row->layout, !row->lacks_indirect);
        talk(row->layout);
        need(!needs_reset(0, KALYUBOS_CONSOLE), row->name, i);
        tells(0, KALYUBOS_CONSOLE, before, "a reset and good chains keep the last fault");
        fail(row);
        need(needs_reset(0, KALYUBOS_CONSOLE), row->name, i);
        tells(0, KALYUBOS_CONSOLE, row->told, row->name);
        before = row->told;
    }
    return before;
}

/* A request and a line typed, each with a first chain that isn't inside memory, at place 0 of queue 0. */
static void check_queue_0(uint8_t slot)
{
    static const struct descriptor outside = { OUTSIDE, 16, WRITE, 0 };
    static const uint16_t head = 9;
    size_t took;
    for (uint8_t window = 0; window < 2; window++) {
        bring_up(slot, window, 0, SPLIT, false);
        put(SPLIT, slot, TABLE, head, outside, 0);
        store(slot, AVAILABLE + 4, &head, sizeof head);
        offer_split(slot, 1);
        if (window == KALYUBOS_BLOCK)
            notify(slot, window, 0);
        else
            need(kalyubos_input(&board, slot, image, 1, &took, &pending) == KALYUBOS_DONE, "input", slot);
        tells(slot, window, (struct kalyubos_fault){ KALYUBOS_FAULT_RANGE, 0, 9, 0 }, "queue 0");
    }
}

/* Nothing is told where there is no such window, slot or board. */
static void check_refusals(void)
{
    static struct kalyubos empty;
    struct kalyubos_fault found, held;
    memset(&held, 0xaa, sizeof held);
    found = held;
    need(kalyubos_last_fault(&board, 0, 2, &found) == KALYUBOS_BAD_WINDOW, "no such window", 2);
    need(kalyubos_last_fault(&board, 2, KALYUBOS_BLOCK, &found) == KALYUBOS_BAD_SLOT, "no such slot", 2);
    need(kalyubos_last_fault(&empty, 0, KALYUBOS_BLOCK, &found) == KALYUBOS_NO_BOARD, "no board", 0);
    need(memcmp(&found, &held, sizeof found) == 0, "what is told of nothing", 0);
}

/* Every fault has a sentence of its own, and so has a number of a later version. */
static void check_texts(void)
{
    for (uint32_t kind = KALYUBOS_NO_FAULT; kind <= KALYUBOS_FAULT_TOO_LONG + 1; kind++)
        for (uint32_t other = KALYUBOS_NO_FAULT; other < kind; other++)
            need(strcmp(kalyubos_fault_text(kind), kalyubos_fault_text(other)) != 0, "a sentence of two faults", kind);
    need(kalyubos_fault_text(UINT32_MAX) != NULL, "the sentence of a later version's fault", 0);
}

/* No fault came in either window of a slot. */
static void is_untold(uint8_t slot, const char *what)
{
    tells(slot, KALYUBOS_BLOCK, NONE, what);
    tells(slot, KALYUBOS_CONSOLE, NONE, what);
}

/* Over an image, and behind a restore. */
static void check_image(void)
{
    uint8_t saved[SNAPSHOT];
    size_t len;
    make(&board, over_image(slots, 2, image, sizeof image));
    need(kalyubos_save(&board, 0, saved, sizeof saved, &len) == KALYUBOS_DONE, "save", 0);
    is_untold(0, "no fault came");
    struct kalyubos_fault last = check_rows(SPLIT_ROWS, sizeof SPLIT_ROWS / sizeof *SPLIT_ROWS, NONE);
    last = check_rows(PACKED_ROWS, sizeof PACKED_ROWS / sizeof *PACKED_ROWS, last);
    tells(0, KALYUBOS_BLOCK, NONE, "the console's faults aren't the disk's");
    is_untold(1, "a guest's faults are its own");
    need(kalyubos_restore(&board, 0, saved, len, &pending) == KALYUBOS_DONE, "restore", 0);
    tells(0, KALYUBOS_CONSOLE, last, "a restore keeps the last fault");
    need(kalyubos_restore(&board, 1, saved, len, &pending) == KALYUBOS_DONE, "restore", 1);
    is_untold(1, "a snapshot has no fault");
    check_queue_0(1);
    check_refusals();
    end(&board);
}

/* A request of a guest whose disk the host serves, which is in flight. */
static void read_sector(uint8_t slot)
{
    static const uint8_t header[16];
    bring_up(slot, KALYUBOS_BLOCK, 0, SPLIT, false);
    store(slot, DATA, header, sizeof header);
    put(SPLIT, slot, TABLE, 0, (struct descriptor){ AT(DATA), 16, NEXT, 1 }, 0);
    put(SPLIT, slot, TABLE, 1, (struct descriptor){ AT(DATA + 16), 513, WRITE, 0 }, 0);
    offer_split(slot, 1);
    need(set(slot, KALYUBOS_BLOCK, NOTIFY, 0) == KALYUBOS_IO, "a read", slot);
}

/* Over disks that the host serves: told in flight, and of the look behind a completion. */
static void check_hosted(void)
{
    static const uint16_t outside = QUEUE;
    static const struct kalyubos_fault behind = { KALYUBOS_FAULT_INDEX, 0, QUEUE, 1 };
    struct kalyubos_slot hosted[2] = { slots[0], slots[1] };
    hosted[0].hosted = hosted[1].hosted = true;
    make(&board, kalyubos_config_of(hosted, 2));
    check_queue_0(1);
    read_sector(0);
    is_untold(0, "no fault came to what is in flight");
    store(0, AVAILABLE + 6, &outside, sizeof outside);
    offer_split(0, 2);
    need(kalyubos_completed(&board, 0, KALYUBOS_BLOCK, 0, false, &pending) == KALYUBOS_DONE, "a completion", 0);
    tells(0, KALYUBOS_BLOCK, behind, "behind a completion");
    read_sector(0);
    tells(0, KALYUBOS_BLOCK, behind, "in flight");
    need(kalyubos_completed(&board, 0, KALYUBOS_BLOCK, 0, false, &pending) == KALYUBOS_DONE, "a completion", 0);
    end(&board);
}

/* A bad chain behind a request in flight, in one service. */
static void check_behind_flight(enum layout layout, struct kalyubos_fault told)
{
    static const uint8_t header[16];
    static const uint16_t heads[] = { 0, QUEUE };
    const uint16_t available = layout == PACKED ? IS_AVAILABLE : 0;
    struct kalyubos_slot hosted = slots[0];
    hosted.hosted = true;
    hosted.depth = 2;
    make(&board, kalyubos_config_of(&hosted, 1));
    bring_up(0, KALYUBOS_BLOCK, 0, layout, false);
    store(0, DATA, header, sizeof header);
    put(layout, 0, TABLE, 0, (struct descriptor){ AT(DATA), 16, NEXT, 1 }, available);
    put(layout, 0, TABLE, 1, (struct descriptor){ AT(DATA + 16), 513, WRITE, 0 }, available);
    put(layout, 0, TABLE, 2, (struct descriptor){ OUTSIDE, 16, 0, 0 }, available);
    if (layout == SPLIT) {
        store(0, AVAILABLE + 4, heads, sizeof heads);
        offer_split(0, 2);
    }
    need(set(0, KALYUBOS_BLOCK, NOTIFY, 0) == KALYUBOS_IO, "a read, and a bad chain", layout);
    need(needs_reset(0, KALYUBOS_BLOCK), "a bad chain behind a read", layout);
    tells(0, KALYUBOS_BLOCK, told, "behind a request in flight");
    end(&board);
}

/* A service that pauses before its second chain, and whose third has a fault: told in each pause and behind it. */
static void check_pause(void)
{
    static const uint16_t outside = QUEUE;
    static const struct kalyubos_fault before = { KALYUBOS_FAULT_RANGE, 0, 9, 0 };
    static const struct kalyubos_fault after = { KALYUBOS_FAULT_INDEX, TRANSMIT, QUEUE, 2 };
    struct kalyubos_config config = over_image(slots, 1, image, sizeof image);
    config.chains = 1;
    make(&board, config);
    check_queue_0(0);
    bring_up(0, KALYUBOS_CONSOLE, TRANSMIT, SPLIT, false);
    put(SPLIT, 0, TABLE, 0, (struct descriptor)BYTE, 0);
    store(0, AVAILABLE + 8, &outside, sizeof outside);
    offer_split(0, 3);
    need(set(0, KALYUBOS_CONSOLE, NOTIFY, TRANSMIT) == KALYUBOS_MORE, "a pause", 0);
    tells(0, KALYUBOS_CONSOLE, before, "the earlier fault, in a pause");
    need(kalyubos_go_on(&board, 0, &pending) == KALYUBOS_DONE, "the end of a service", 0);
    tells(0, KALYUBOS_CONSOLE, after, "behind a pause");
    end(&board);
}

int main(void)
{
    check_texts();
    check_image();
    check_hosted();
    check_behind_flight(SPLIT, (struct kalyubos_fault){ KALYUBOS_FAULT_INDEX, 0, QUEUE, 1 });
    check_behind_flight(PACKED, (struct kalyubos_fault){ KALYUBOS_FAULT_RANGE, 0, 2, 2 });
    check_pause();
    puts("faults: why a window asks for a reset, and where: in split and packed queues, in rings and inner tables");
    return 0;
}
