/*
 * Many operations of one guest's disk at once: at depths 1, 8 and 64, over split and packed queues, completed in reverse and
 * in shuffled order. The driver offers more requests than the depth, so that the last of them wait. Checked are what is asked
 * for with which tag, each byte of the disk and of the guest's data, each status, and the used entries: their ids and lengths,
 * in the order of the completions, so that each chain is given back once. Then faults with operations in flight: from then on
 * a completion frees its tag and changes no byte of memory. A drop does so of all tags at once, and the reset that waited
 * passes. A held slot takes no request, not on the board to which its guest moves either, until it is released there; each
 * request is served once.
 */
#include <inttypes.h>
#include <stdio.h>
#include <stdlib.h>
#include <string.h>

#include "kalyubos.h"

enum { SIZE = 256, MOST = 72, ROUNDS = 3, SECTOR = 512, LEN = 2 * SECTOR, SECTORS = 2 * MOST, MEMORY_LEN = 0x80000 };
static const uint64_t MEMORY = 0x80000000;

/* The queue's areas; then for each request a header, a status byte behind it, and data. */
enum { TABLE = 0x1000, AVAILABLE = 0x3000, USED = 0x5000, HEADERS = 0x8000, HEADER = 0x20, DATA = 0x10000, OUTSIDE = 0x90000000 };
enum { NEXT = 1, WRITE = 2, AVAIL_FLAG = 1 << 7, USED_FLAG = 1 << 15 };
enum { IN = 0, OUT = 1, OK = 0, IOERR = 1, UNTOLD = 0xff };
enum { QUEUE_READY = 0x044, NOTIFY = 0x050, ACK = 0x064, STATUS = 0x070, NEEDS_RESET = 0x40 };

enum ring { SPLIT, PACKED };
enum order { REVERSED, SHUFFLED };
static const char *const RINGS[] = { "split", "packed" }, *const ORDERS[] = { "reversed", "shuffled" };

static struct kalyubos board;
static struct kalyubos_pending pending;
static uint8_t *memory, disk[SECTORS * SECTOR];

/* The driver's: where it offers next and where it looks for the next used entry, in both kinds of ring. */
static enum ring ring;
static uint32_t offered, used; /* split: the idx. Packed: the place, counted on over all laps. */

/* What is in flight: the request of each tag. */
static uint32_t depth, waiting; /* requests that have no tag yet begin with this one */
static uint64_t flying;
static unsigned request_of[KALYUBOS_TAGS];

static void need(bool holds, const char *what, uint64_t number)
{
    if (!holds) {
        fprintf(stderr, "depth: %s (%" PRIu64 "), %s, depth %" PRIu32 "\n", what, number, RINGS[ring], depth);
        exit(1);
    }
}

static uint32_t set(uint16_t offset, uint32_t value)
{
    return kalyubos_write(&board, 0, KALYUBOS_BLOCK, offset, 4, value, &pending);
}

static void put(uint32_t at, uint64_t value, unsigned len)
{
    memcpy(memory + at, &value, len);
}

static uint64_t get(uint32_t at, unsigned len)
{
    uint64_t value = 0;
    memcpy(&value, memory + at, len);
    return value;
}

static uint64_t chance(uint64_t below)
{
    static uint64_t state = 0x9e3779b97f4a7c15;
    state ^= state << 13;
    state ^= state >> 7;
    state ^= state << 17;
    return (state >> 11) % below;
}

/* ---- a board and its driver */

static void bring_up(void)
{
    const uint32_t at = (uint32_t)MEMORY;
    const uint32_t steps[][2] = { { STATUS, 0 }, { STATUS, 1 }, { STATUS, 3 }, { 0x24, 0 }, { 0x20, 1 << 9 /* FLUSH */ },
                                  { 0x24, 1 }, { 0x20, ring == PACKED ? 5 : 1 }, { STATUS, 11 }, { 0x38, SIZE },
                                  { 0x80, at + TABLE }, { 0x90, at + AVAILABLE }, { 0xa0, at + USED }, { QUEUE_READY, 1 },
                                  { STATUS, 15 } };
    memset(memory, 0, MEMORY_LEN);
    offered = used = 0;
    for (size_t i = 0; i < sizeof steps / sizeof *steps; i++)
        need(set((uint16_t)steps[i][0], steps[i][1]) == KALYUBOS_DONE, "a step of the driver", i);
}

static void create(uint32_t its_depth)
{
    struct kalyubos_slot slot = {
        .size = sizeof slot, .regions = { { MEMORY, MEMORY_LEN } }, .count = SECTORS, .hosted = true, .depth = its_depth,
    };
    struct kalyubos_config config = kalyubos_config_of(&slot, 1);
    size_t len;
    depth = its_depth;
    need(kalyubos_create(&board, &config) == KALYUBOS_DONE, "create", 0);
    need(kalyubos_memory(&board, 0, MEMORY, &memory, &len) == KALYUBOS_DONE && len == MEMORY_LEN, "memory", len);
}

static void make(enum ring its_ring, uint32_t its_depth)
{
    ring = its_ring;
    flying = 0;
    create(its_depth);
    bring_up();
}

/* Each request reads or writes two sectors of its own; each third has its data in two buffers. */
static uint32_t type_of(unsigned request)
{
    return request % 2 == 0 ? IN : OUT;
}

static unsigned members_of(unsigned request)
{
    return request % 3 == 0 ? 4 : 3;
}

static bool fails(unsigned request)
{
    return request % 7 == 6;
}

/* What the device gives a request back by: any id in a packed queue, the head in a split one. */
static uint32_t id_of(unsigned request)
{
    unsigned head = 0;
    for (unsigned before = 0; before < request; before++)
        head += members_of(before);
    return ring == PACKED ? 1000 + 5 * request : head;
}

static uint32_t used_len_of(unsigned request)
{
    return type_of(request) == OUT ? 1 : fails(request) ? 0 : LEN + 1;
}

static uint32_t header_of(unsigned request)
{
    return HEADERS + HEADER * request;
}

static uint32_t data_of(unsigned request)
{
    return DATA + LEN * request;
}

static void describe(uint32_t place, uint64_t addr, uint32_t len, uint16_t first, uint16_t second)
{
    put(TABLE + 16 * place, addr, 8);
    put(TABLE + 16 * place + 8, len, 4);
    put(TABLE + 16 * place + 12, first, 2);
    put(TABLE + 16 * place + 14, second, 2);
}

/* The flags of a packed descriptor at a place, counted on over all laps: it is on offer, or used (2.8.1). */
static uint16_t lap_flags(uint32_t place, bool is_used)
{
    bool wrap = place / SIZE % 2 == 0;
    return (uint16_t)((wrap ? AVAIL_FLAG : 0) | (wrap == is_used ? USED_FLAG : 0));
}

/* Offers a request, whose data lie at an address. */
static void offer_at(unsigned request, uint64_t data)
{
    unsigned members = members_of(request), parts = members - 2;
    uint32_t head = id_of(request), at = header_of(request);
    uint16_t data_flag = type_of(request) == IN ? WRITE : 0;
    put(at, type_of(request), 8);
    put(at + 8, 2 * request, 8);
    put(at + 16, UNTOLD, 1);
    for (unsigned i = 0; i < members; i++) {
        bool is_data = i > 0 && i + 1 < members;
        uint64_t addr = i == 0 ? MEMORY + at : is_data ? data + (i - 1) * (LEN / parts) : MEMORY + at + 16;
        uint32_t len = i == 0 ? 16 : is_data ? LEN / parts : 1;
        uint16_t flags = (uint16_t)((i + 1 < members ? NEXT : WRITE) | (is_data ? data_flag : 0));
        if (ring == PACKED)
            describe((offered + i) % SIZE, addr, len, (uint16_t)id_of(request), flags | lap_flags(offered + i, false));
        else
            describe(head + i, addr, len, flags, (uint16_t)(head + i + 1));
    }
    if (ring == SPLIT) {
        put(AVAILABLE + 4 + 2 * (offered % SIZE), head, 2);
        put(AVAILABLE + 2, offered + 1, 2);
    }
    offered += ring == PACKED ? members : 1;
}

static uint8_t byte_of(unsigned request, unsigned round, unsigned at)
{
    return (uint8_t)(request * 31 + round * 101 + at * 7 + at / 256);
}

/* Offers a request; what it writes, or what it finds on the disk, is known by its number and the round's. */
static void offer(unsigned request, unsigned round)
{
    uint8_t *from = type_of(request) == OUT ? memory + data_of(request) : disk + request * LEN;
    uint8_t *into = type_of(request) == OUT ? disk + request * LEN : memory + data_of(request);
    for (unsigned at = 0; at < LEN; at++)
        from[at] = byte_of(request, round, at);
    memset(into, 0, LEN);
    offer_at(request, MEMORY + data_of(request));
}

/* ---- the host */

/* What is asked for with a tag is its request, however often it is asked. */
static void check_operation(uint8_t tag)
{
    struct kalyubos_operation it;
    struct kalyubos_run runs[KALYUBOS_RUNS];
    unsigned request = request_of[tag], parts = members_of(request) - 2;
    uint64_t at = MEMORY + data_of(request);
    need(kalyubos_operation(&board, 0, KALYUBOS_BLOCK, tag, &it, runs, KALYUBOS_RUNS) == KALYUBOS_DONE, "an operation", tag);
    need(it.kind == (type_of(request) == IN ? KALYUBOS_IN : KALYUBOS_OUT) && !it.stable, "its kind", tag);
    need(it.start == request * LEN && it.len == LEN && it.runs == parts, "its bytes", tag);
    for (unsigned i = 0; i < parts; i++)
        need(runs[i].at == at + i * (LEN / parts) && runs[i].len == LEN / parts, "its runs", tag);
}

static void check_tags(void)
{
    struct kalyubos_operation it;
    struct kalyubos_run run;
    uint64_t tags = 0;
    need(kalyubos_in_flight(&board, 0, KALYUBOS_BLOCK, &tags) == KALYUBOS_DONE && tags == flying, "the tags in flight", tags);
    for (unsigned tag = 0; tag <= UINT8_MAX; tag++)
        if (tag < depth && (flying >> tag & 1) != 0)
            check_operation((uint8_t)tag);
        else
            need(kalyubos_operation(&board, 0, KALYUBOS_BLOCK, (uint8_t)tag, &it, &run, 1) == KALYUBOS_IDLE, "a free tag", tag);
}

/* Requests before `end` begin, each with the lowest free tag, as long as there is one; whether any did. */
static bool begin(uint32_t end)
{
    uint64_t before = flying;
    for (uint8_t tag = 0; tag < depth && waiting < end; tag++)
        if ((flying >> tag & 1) == 0) {
            flying |= (uint64_t)1 << tag;
            request_of[tag] = waiting++;
        }
    return flying != before;
}

/* The highest tag in flight, or one by chance. */
static uint8_t next_tag(enum order order)
{
    uint64_t rest = flying;
    for (uint64_t others = chance((uint64_t)__builtin_popcountll(rest)); order == SHUFFLED && others > 0; others--)
        rest &= rest - 1;
    return (uint8_t)(order == SHUFFLED ? __builtin_ctzll(rest) : 63 - __builtin_clzll(rest));
}

static void move(unsigned request)
{
    uint8_t *data = memory + data_of(request), *sectors = disk + request * LEN;
    memcpy(type_of(request) == IN ? data : sectors, type_of(request) == IN ? sectors : data, LEN);
}

/* ---- what the driver finds */

/* The next used entry is of this request, and there is none behind it. */
static void take_used(unsigned request)
{
    if (ring == SPLIT) {
        uint32_t at = USED + 4 + 8 * (used % SIZE);
        need(get(at, 4) == id_of(request) && get(at + 4, 4) == used_len_of(request), "a used entry", request);
        need(get(USED + 2, 2) == (uint16_t)++used, "the used idx", get(USED + 2, 2));
        return;
    }
    uint32_t at = TABLE + 16 * (used % SIZE);
    need(get(at + 12, 2) == id_of(request) && get(at + 8, 4) == used_len_of(request), "a used descriptor", request);
    need((get(at + 14, 2) & (AVAIL_FLAG | USED_FLAG)) == lap_flags(used, true), "its flags", request);
    used += members_of(request);
    uint64_t behind = get(TABLE + 16 * (used % SIZE) + 14, 2) & (AVAIL_FLAG | USED_FLAG);
    need(behind != lap_flags(used, true), "another used descriptor", request);
}

static void check_request(unsigned request, unsigned round)
{
    const uint8_t *found = type_of(request) == OUT ? disk + request * LEN : memory + data_of(request);
    need(memory[header_of(request) + 16] == (fails(request) ? IOERR : OK), "a status", request);
    for (unsigned at = 0; at < LEN; at++)
        need(found[at] == (fails(request) ? 0 : byte_of(request, round, at)), "a byte", request);
}

/* ---- rounds of requests */

/* What waits for all that is in flight, and changes nothing. */
static void check_busy(void)
{
    size_t len;
    need(set(STATUS, 0) == KALYUBOS_BUSY && set(QUEUE_READY, 0) == KALYUBOS_BUSY, "a reset in flight", flying);
    need(kalyubos_saved_len(&board, 0, &len) == KALYUBOS_BUSY, "a save in flight", flying);
}

/* Completes the operation of a tag; `answer` is what that must tell. */
static void complete(uint8_t tag, bool failed, uint32_t answer)
{
    need(kalyubos_completed(&board, 0, KALYUBOS_BLOCK, tag, failed, &pending) == answer, "a completion", tag);
}

/* Serves one that is in flight, with which requests before `end` may begin. */
static void serve_one(uint32_t end, enum order order)
{
    uint8_t tag = next_tag(order);
    unsigned request = request_of[tag];
    check_busy();
    if (!fails(request))
        move(request);
    flying &= ~((uint64_t)1 << tag);
    complete(tag, fails(request), begin(end) ? KALYUBOS_IO : KALYUBOS_DONE);
    need(pending.block == 1 && set(ACK, 1) == KALYUBOS_DONE && pending.block == 0, "the line", pending.block);
    take_used(request);
    check_tags();
}

static void offer_all(uint32_t requests, unsigned round)
{
    waiting = 0;
    for (unsigned request = 0; request < requests; request++)
        offer(request, round);
}

static void check_requests(uint32_t requests, unsigned round)
{
    need(flying == 0 && waiting == requests, "all are completed", flying);
    for (unsigned request = 0; request < requests; request++)
        check_request(request, round);
}

static void run_round(uint32_t requests, unsigned round, enum order order)
{
    offer_all(requests, round);
    begin(requests);
    need(set(NOTIFY, 0) == KALYUBOS_IO && pending.block == 0, "a notify", round);
    check_tags();
    need(set(NOTIFY, 0) == KALYUBOS_DONE, "a notify that begins nothing", round);
    for (uint32_t left = requests; left > 0; left--)
        serve_one(requests, order);
    check_requests(requests, round);
}

static void run(enum ring its_ring, uint32_t its_depth, uint32_t requests, enum order order)
{
    unsigned failed = 0;
    make(its_ring, its_depth);
    for (unsigned round = 0; round < ROUNDS; round++)
        run_round(requests, round, order);
    for (unsigned request = 0; request < requests; request++)
        failed += ROUNDS * fails(request);
    need(set(STATUS, 0) == KALYUBOS_DONE, "a reset behind all", requests);
    need(kalyubos_destroy(&board) == KALYUBOS_DONE, "destroy", 0);
    printf("%s, depth %" PRIu32 ", %s: %" PRIu32 " requests, %u failed\n", RINGS[ring], depth, ORDERS[order], ROUNDS * requests,
           failed);
}

/* ---- faults */

static uint32_t status(void)
{
    uint32_t value;
    need(kalyubos_read(&board, 0, KALYUBOS_BLOCK, STATUS, 4, &value) == KALYUBOS_DONE, "Status", 0);
    return value;
}

static void check_fault(void)
{
    struct kalyubos_fault fault;
    need((status() & NEEDS_RESET) != 0 && (pending.block & 2) != 0, "the window asks for a reset", status());
    need(kalyubos_last_fault(&board, 0, KALYUBOS_BLOCK, &fault) == KALYUBOS_DONE, "last_fault", 0);
    need(fault.kind == KALYUBOS_FAULT_RANGE && fault.queue == 0, "another fault", fault.kind);
}

/* Completes what is in flight of a window that asks for a reset: tags are freed, and nothing changes. */
static void free_tags(const uint8_t *order, size_t len)
{
    static uint8_t before[MEMORY_LEN];
    memcpy(before, memory, MEMORY_LEN);
    for (size_t i = 0; i < len; i++) {
        check_busy();
        check_tags();
        flying &= ~((uint64_t)1 << order[i]);
        complete(order[i], i % 2 == 1, KALYUBOS_DONE);
        complete(order[i], false, KALYUBOS_IDLE);
        need(memcmp(before, memory, MEMORY_LEN) == 0, "a byte changes behind a fault", order[i]);
    }
    check_tags();
    need(flying == 0, "a tag is taken behind a fault", flying);
}

static void tell_host(uint32_t (*call)(struct kalyubos *, uint8_t, uint8_t, struct kalyubos_pending *), uint32_t answer, const char *what)
{
    uint32_t found = call(&board, 0, KALYUBOS_BLOCK, &pending);
    need(found == answer, what, found);
}

/* The driver resets its device, and a request is served as ever, in a slot that is held once it is released. */
static void go_on_behind(bool held)
{
    bring_up();
    offer_all(1, 0);
    if (held) {
        need(set(NOTIFY, 0) == KALYUBOS_DONE, "a notify behind a reset of a held slot", 0);
        check_tags();
    }
    begin(1);
    if (held)
        tell_host(kalyubos_release, KALYUBOS_IO, "a release behind a reset");
    else
        need(set(NOTIFY, 0) == KALYUBOS_IO, "a notify behind a reset", 0);
    move(0);
    flying = 0;
    complete(0, false, KALYUBOS_DONE);
    take_used(0);
    check_request(0, 0);
}

/* A chain outside the memory behind three that are good, by one notify. */
static void make_fault(enum ring its_ring)
{
    make(its_ring, 8);
    offer_all(3, 0);
    offer_at(3, OUTSIDE);
    begin(3);
    need(set(NOTIFY, 0) == KALYUBOS_IO, "a notify with a fault", 0);
    check_fault();
}

static void fault_beside_others(enum ring its_ring)
{
    static const uint8_t order[] = { 1, 2, 0 };
    make_fault(its_ring);
    free_tags(order, sizeof order);
    go_on_behind(false);
    need(kalyubos_destroy(&board) == KALYUBOS_DONE, "destroy", 0);
    printf("%s: a fault beside three in flight, which are freed\n", RINGS[ring]);
}

/* The same chain behind as many as the depth: a completion gives its own chain back, and then meets the fault. */
static void fault_behind_a_completion(enum ring its_ring)
{
    static const uint8_t order[] = { 1, 0 };
    make(its_ring, 3);
    offer_all(3, 0);
    offer_at(3, OUTSIDE);
    begin(3);
    need(set(NOTIFY, 0) == KALYUBOS_IO && (status() & NEEDS_RESET) == 0, "a notify", 0);
    move(2);
    flying &= ~(uint64_t)4;
    complete(2, false, KALYUBOS_DONE);
    take_used(2);
    check_request(2, 0);
    check_fault();
    free_tags(order, sizeof order);
    go_on_behind(false);
    need(kalyubos_destroy(&board) == KALYUBOS_DONE, "destroy", 0);
    printf("%s: a fault behind a completion, with two in flight, which are freed\n", RINGS[ring]);
}

/* ---- what the host gives up */

static void ask_beside(struct kalyubos_fault *fault, struct kalyubos_counters *counters)
{
    need(kalyubos_last_fault(&board, 0, KALYUBOS_BLOCK, fault) == KALYUBOS_DONE, "last_fault", 0);
    need(kalyubos_counters(&board, 0, counters) == KALYUBOS_DONE, "counters", 0);
}

/* All tags are freed, no byte of memory changes, and the window asks for a reset; no fault is noted, and nothing is counted. */
static void drop(void)
{
    static uint8_t before[MEMORY_LEN];
    struct kalyubos_fault fault, later_fault;
    struct kalyubos_counters counters, later_counters;
    memcpy(before, memory, MEMORY_LEN);
    ask_beside(&fault, &counters);
    check_busy();
    tell_host(kalyubos_drop, KALYUBOS_DONE, "a drop");
    need(pending.block == 2 && (status() & NEEDS_RESET) != 0, "the window asks for no reset", pending.block);
    flying = 0;
    check_tags();
    for (unsigned tag = 0; tag <= UINT8_MAX; tag++)
        complete((uint8_t)tag, tag % 2 == 1, KALYUBOS_IDLE);
    tell_host(kalyubos_drop, KALYUBOS_IDLE, "a drop of nothing");
    need(set(NOTIFY, 0) == KALYUBOS_DONE, "a notify behind a drop", 0);
    check_tags();
    ask_beside(&later_fault, &later_counters);
    need(memcmp(&fault, &later_fault, sizeof fault) == 0, "a fault is noted", later_fault.kind);
    need(memcmp(&counters, &later_counters, sizeof counters) == 0, "a drop is counted", later_counters.chains);
    need(memcmp(before, memory, MEMORY_LEN) == 0, "a byte changes by a drop", 0);
}

/* The buffers of what was dropped are the guest's: nothing of them changes behind its reset. */
static void check_unused(void)
{
    for (uint32_t at = data_of(1); at < MEMORY_LEN; at++)
        need(memory[at] == 0, "a byte of a dropped request", at);
}

/* Some requests are served; then the host's transfers are stuck, the first of them half done. It cancels them. */
static void drop_in_flight(enum ring its_ring, bool held)
{
    make(its_ring, 8);
    tell_host(kalyubos_drop, KALYUBOS_IDLE, "a drop of nothing");
    offer_all(12, 0);
    begin(12);
    need(set(NOTIFY, 0) == KALYUBOS_IO, "a notify", 0);
    for (unsigned i = 0; i < 3; i++)
        serve_one(12, SHUFFLED);
    if (held)
        tell_host(kalyubos_hold, KALYUBOS_DONE, "a hold");
    memset(memory + data_of(request_of[__builtin_ctzll(flying)]), 0xee, SECTOR);
    drop();
    go_on_behind(held);
    check_unused();
    need(kalyubos_destroy(&board) == KALYUBOS_DONE, "destroy", 0);
    printf("%s: a drop of eight in flight%s, and a reset that waited\n", RINGS[ring], held ? " of a held slot" : "");
}

/* A drop sets both bits again that the fault has set. */
static void drop_behind_a_fault(enum ring its_ring)
{
    make_fault(its_ring);
    need(set(ACK, 3) == KALYUBOS_DONE && pending.block == 0, "the line", pending.block);
    drop();
    check_fault();
    go_on_behind(false);
    check_unused();
    need(kalyubos_destroy(&board) == KALYUBOS_DONE, "destroy", 0);
    printf("%s: a drop of three in flight behind a fault\n", RINGS[ring]);
}

/* ---- a slot that is held */

/* The guest goes on on another board, of whose disk as many operations may be in flight. */
static void move_guest(uint32_t its_depth)
{
    static uint8_t kept[MEMORY_LEN], devices[512];
    size_t len;
    need(kalyubos_save(&board, 0, devices, sizeof devices, &len) == KALYUBOS_DONE, "save", 0);
    memcpy(kept, memory, MEMORY_LEN);
    need(kalyubos_destroy(&board) == KALYUBOS_DONE, "destroy", 0);
    create(its_depth);
    memcpy(memory, kept, MEMORY_LEN);
    need(kalyubos_restore(&board, 0, devices, len, &pending) == KALYUBOS_DONE, "restore", len);
    need(pending.block == 0, "the line behind a restore", pending.block);
}

/* Nothing begins in a held slot, whatever its driver notifies. */
static void check_held(void)
{
    tell_host(kalyubos_hold, KALYUBOS_IDLE, "a hold of a held slot");
    need(set(NOTIFY, 0) == KALYUBOS_DONE, "a notify of a held slot", 0);
    check_tags();
}

static void move_held(enum ring its_ring, uint32_t its_depth, uint32_t next_depth, uint32_t requests)
{
    make(its_ring, its_depth);
    tell_host(kalyubos_release, KALYUBOS_IDLE, "a release of a slot that isn't held");
    offer_all(requests, 0);
    tell_host(kalyubos_hold, KALYUBOS_DONE, "a hold");
    check_held();
    begin(requests);
    tell_host(kalyubos_release, KALYUBOS_IO, "a release");
    check_tags();
    serve_one(requests, SHUFFLED);
    tell_host(kalyubos_hold, KALYUBOS_DONE, "a hold in flight");
    check_held();
    while (flying != 0)
        serve_one(0, SHUFFLED);
    uint32_t served = waiting;
    move_guest(next_depth);
    check_held();
    begin(requests);
    tell_host(kalyubos_release, KALYUBOS_IO, "a release behind a restore");
    check_tags();
    tell_host(kalyubos_release, KALYUBOS_IDLE, "a second release");
    while (flying != 0)
        serve_one(requests, SHUFFLED);
    check_requests(requests, 0);
    need(kalyubos_destroy(&board) == KALYUBOS_DONE, "destroy", 0);
    printf("%s: %" PRIu32 " requests at depth %" PRIu32 ", and %" PRIu32 " at depth %" PRIu32 " behind a release there\n", RINGS[ring],
           served, its_depth, requests - served, next_depth);
}

/* A request that asks nothing of the disk waits too, and is served by the release. */
static void hold_a_refusal(enum ring its_ring)
{
    enum { UNKNOWN = 99, UNSUPP = 2 };
    make(its_ring, 1);
    tell_host(kalyubos_hold, KALYUBOS_DONE, "a hold");
    offer_all(1, 0);
    put(header_of(0), UNKNOWN, 4);
    check_held();
    need(memory[header_of(0) + 16] == UNTOLD && pending.block == 0, "a held slot serves", pending.block);
    tell_host(kalyubos_release, KALYUBOS_DONE, "a release");
    check_tags();
    need(memory[header_of(0) + 16] == UNSUPP && pending.block == 1, "a request behind a release", pending.block);
    need(kalyubos_destroy(&board) == KALYUBOS_DONE, "destroy", 0);
    printf("%s: a request that asks nothing of the disk waits for the release\n", RINGS[ring]);
}

static void try_drops_and_holds(enum ring kind)
{
    drop_in_flight(kind, false);
    drop_in_flight(kind, true);
    drop_behind_a_fault(kind);
    move_held(kind, 1, 8, 6);
    move_held(kind, 8, 3, 20);
    move_held(kind, 64, 64, MOST);
    hold_a_refusal(kind);
}

int main(void)
{
    static const struct { uint32_t depth, requests; } DEPTHS[] = { { 1, 5 }, { 8, 20 }, { 64, MOST } };
    for (enum ring kind = SPLIT; kind <= PACKED; kind++) {
        for (size_t i = 0; i < sizeof DEPTHS / sizeof *DEPTHS; i++)
            for (enum order order = REVERSED; order <= SHUFFLED; order++)
                run(kind, DEPTHS[i].depth, DEPTHS[i].requests, order);
        fault_beside_others(kind);
        fault_behind_a_completion(kind);
        try_drops_and_holds(kind);
    }
    return 0;
}
