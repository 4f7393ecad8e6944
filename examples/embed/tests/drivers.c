/*
 * Sane drivers over disks that the host serves: each request ends as its host said.
 *
 *     drivers SEEDS
 *
 * For each seed eight guests use their disks, first on one board, in an order by chance, then each on a board and a
 * thread of its own, all at once and without a lock. A driver has up to eight requests on offer, and its disk a depth from 1
 * to 64. Its host does operations in any order, when it likes, and says of some that they failed. What begins with each call,
 * and by which tags, is known beforehand. The driver compares what is asked with its request, and each used entry, status and
 * read with a disk that it keeps in mind. Where its disk does several operations at once, those share no sector. Now and then
 * it resets its device in the middle, or writes over a request that is in flight: its head, descriptors, header and segment.
 * The host holds the slot for a while, or gives up what is in flight, and then the driver resets its device. At its end it
 * compares what the library counted with what it asked for.
 */
#include <inttypes.h>
#include <pthread.h>
#include <stdio.h>
#include <stdlib.h>
#include <string.h>

#include "shut_heap.h"

enum { GUESTS = 8, TURNS = 400, PLACES = 8, RING = 32, SECTOR = 512, SECTORS = 32, MOST = 4 /* sectors of a request */ };
enum { TABLE = 0x0, AVAIL = 0x200, USED = 0x300, HEADERS = 0x600, MEMORY_LEN = 0x1000, DATA_LEN = 0x8000 };
enum { IN = 0, OUT = 1, FLUSH = 4, GET_ID = 8, WRITE_ZEROES = 13, OK = 0, IOERR = 1, UNSUPP = 2 };
static const uint64_t MEMORY = 0x80000000, DATA = 0x100000000; /* the regions of the rings and headers, and of the data */

static const uint32_t DEPTHS[] = { 1, 2, 5, 64 };

struct request {
    uint32_t type, count;
    uint64_t sector;
    bool is_open;    /* it is offered and not taken back */
    uint16_t number; /* how many were offered before it */
    bool asks;
    uint8_t refused; /* its status where it asks for nothing */
    uint8_t verdict; /* and where it asks, once it is completed */
};

/* What is in flight with a tag. */
struct flight {
    unsigned place; /* its request's */
    bool is_moved;
    struct kalyubos_operation operation;
    struct kalyubos_run run;
};

struct guest {
    struct kalyubos *board;
    uint8_t slot, *memory, *data;
    uint64_t state, turns, done, failures, dropped;
    bool can_flush, held;
    uint32_t depth;

    /* the driver's: its requests by place, how many are offered and taken back, and the disk that it has in mind */
    struct request requests[PLACES];
    uint16_t offered, used;
    uint8_t mind[SECTORS * SECTOR];
    bool is_known[SECTORS];
    struct kalyubos_counters counted; /* and what its device did, as the driver counts */

    /* what the device does: the places in the order of their offers, how many it took, and those that it used, in order */
    unsigned order[RING], ended[RING];
    uint16_t taken, ended_len;

    /* the host's: the disk, and what is in flight */
    uint8_t disk[SECTORS * SECTOR];
    uint64_t begun;
    struct flight flights[PLACES];
};

static uint64_t chance(struct guest *guest, uint64_t below)
{
    guest->state ^= guest->state << 13;
    guest->state ^= guest->state >> 7;
    guest->state ^= guest->state << 17;
    return (guest->state >> 11) % below;
}

static uint8_t *data_of(struct guest *guest, unsigned place)
{
    return guest->data + (size_t)place * MOST * SECTOR;
}

/* The address of what a region's pointer points to. */
static uint64_t address_of(const struct guest *guest, const uint8_t *data)
{
    return DATA + (uint64_t)(data - guest->data);
}

/* ---- the host */

/* The operation of a tag is what its request asks for. */
static void compare_with_request(struct guest *guest, const struct flight *flight)
{
    static const uint32_t kinds[] = {
        [IN] = KALYUBOS_IN, [OUT] = KALYUBOS_OUT, [FLUSH] = KALYUBOS_FLUSH, [WRITE_ZEROES] = KALYUBOS_ZEROES,
    };
    const struct kalyubos_operation *it = &flight->operation;
    const struct request *request = &guest->requests[flight->place];
    bool moves = request->type == IN || request->type == OUT;
    bool is_stable = !guest->can_flush && (request->type == OUT || request->type == WRITE_ZEROES);
    uint64_t start = request->sector * SECTOR, len = request->count * SECTOR;
    uint64_t at = moves ? address_of(guest, data_of(guest, flight->place)) : start;
    need(it->kind == kinds[request->type] && it->stable == is_stable, "another operation", it->kind);
    need(it->start == (moves ? start : 0) && it->len == (moves ? len : 0), "other bytes", it->len);
    need(it->runs == (request->type != FLUSH && len != 0), "other runs", it->runs);
    need(it->runs == 0 || (flight->run.at == at && flight->run.len == len), "another run", at);
}

static void ask(struct guest *guest, uint8_t tag)
{
    struct flight *flight = &guest->flights[tag];
    need(kalyubos_operation(guest->board, guest->slot, KALYUBOS_BLOCK, tag, &flight->operation, &flight->run, 1) == KALYUBOS_DONE,
         "nothing is in flight", tag);
    compare_with_request(guest, flight);
}

static void end_request(struct guest *guest, unsigned place)
{
    guest->ended[guest->ended_len++ % RING] = place;
}

/* The lowest tag that is free, or the depth. */
static uint8_t free_tag(const struct guest *guest)
{
    uint8_t tag = 0;
    while (tag < guest->depth && (guest->begun >> tag & 1) != 0)
        tag++;
    return tag;
}

/* What the device does with all on offer, unless the slot is held: as long as a tag is free, a request gets it, or is done at once. */
static void take_answer(struct guest *guest, uint32_t answer)
{
    uint64_t before = guest->begun, tags = 0;
    for (uint8_t tag; !guest->held && guest->taken != guest->offered && (tag = free_tag(guest)) < guest->depth; guest->taken++) {
        unsigned place = guest->order[guest->taken % RING];
        if (!guest->requests[place].asks) {
            end_request(guest, place);
            continue;
        }
        guest->begun |= (uint64_t)1 << tag;
        guest->flights[tag] = (struct flight){ .place = place };
    }
    need(kalyubos_in_flight(guest->board, guest->slot, KALYUBOS_BLOCK, &tags) == KALYUBOS_DONE && tags == guest->begun, "other tags", tags);
    need(answer == (before != guest->begun ? KALYUBOS_IO : KALYUBOS_DONE), "an answer", answer);
    for (uint8_t tag = 0; tag < guest->depth && tag < PLACES; tag++)
        if ((guest->begun & ~before) >> tag & 1)
            ask(guest, tag);
}

/* The tag of an operation in flight, by chance. */
static uint8_t some_tag(struct guest *guest)
{
    uint64_t rest = guest->begun;
    for (uint64_t others = chance(guest, (uint64_t)__builtin_popcountll(rest)); others > 0; others--)
        rest &= rest - 1;
    return (uint8_t)__builtin_ctzll(rest);
}

static void move(struct guest *guest, struct flight *flight)
{
    const struct kalyubos_run *run = &flight->run;
    uint8_t *at = guest->data + (run->at - DATA), *bytes = guest->disk + flight->operation.start;
    flight->is_moved = true;
    if (flight->operation.runs == 0)
        return;
    if (flight->operation.kind == KALYUBOS_ZEROES)
        memset(guest->disk + run->at, 0, run->len);
    else if (flight->operation.kind == KALYUBOS_IN)
        memcpy(at, bytes, run->len);
    else
        memcpy(bytes, at, run->len);
}

/* Nothing is in flight with a tag that is free, or that there isn't. */
static void complete_nothing(struct guest *guest)
{
    struct kalyubos_operation operation;
    struct kalyubos_run run;
    struct kalyubos_pending pending;
    uint8_t tag = (uint8_t)chance(guest, 256);
    if (tag < 64 && (guest->begun >> tag & 1) != 0)
        return;
    need(kalyubos_operation(guest->board, guest->slot, KALYUBOS_BLOCK, tag, &operation, &run, 1) == KALYUBOS_IDLE, "an operation", tag);
    need(kalyubos_completed(guest->board, guest->slot, KALYUBOS_BLOCK, tag, false, &pending) == KALYUBOS_IDLE, "a completion", tag);
}

/* Ends an operation, which is told as before. What failed may have been done, or not at all. */
static void complete(struct guest *guest)
{
    struct kalyubos_pending pending;
    uint8_t tag = some_tag(guest);
    struct flight *flight = &guest->flights[tag];
    bool failed = chance(guest, 6) == 0;
    ask(guest, tag);
    if (!flight->is_moved && (!failed || chance(guest, 2)))
        move(guest, flight);
    guest->requests[flight->place].verdict = failed ? IOERR : OK;
    guest->failures += failed;
    guest->counted.refusals += failed;
    guest->begun &= ~((uint64_t)1 << tag);
    end_request(guest, flight->place);
    uint32_t answer = kalyubos_completed(guest->board, guest->slot, KALYUBOS_BLOCK, tag, failed, &pending);
    need(pending.block & 1, "a completion without a notification", answer);
    take_answer(guest, answer);
}

/* ---- the driver */

static void set(struct guest *guest, uint16_t offset, uint32_t value);

static void bring_up(struct guest *guest)
{
    const uint32_t at = (uint32_t)MEMORY, features = 1u << 14 | (uint32_t)guest->can_flush << 9; /* WRITE_ZEROES, FLUSH */
    const uint32_t steps[][2] = { { 0x70, 1 }, { 0x70, 3 }, { 0x24, 0 }, { 0x20, features }, { 0x24, 1 }, { 0x20, 1 },
                                  { 0x70, 11 }, { 0x38, RING }, { 0x80, at + TABLE }, { 0x90, at + AVAIL },
                                  { 0xa0, at + USED }, { 0x44, 1 }, { 0x70, 15 } };
    memset(guest->memory, 0, HEADERS);
    guest->offered = guest->used = guest->taken = guest->ended_len = 0;
    for (size_t i = 0; i < sizeof steps / sizeof *steps; i++)
        set(guest, (uint16_t)steps[i][0], steps[i][1]);
}

static void describe(struct guest *guest, unsigned place, uint64_t addr, uint32_t len, uint16_t flags)
{
    struct { uint64_t addr; uint32_t len; uint16_t flags, next; } it = { addr, len, flags, 0 };
    it.next = (uint16_t)(place + 1);
    memcpy(guest->memory + TABLE + 16 * place, &it, sizeof it);
}

/* Whether a request may be in flight beside those that are open: no two of them share a sector of which one is written. */
static bool stands_beside_others(const struct guest *guest, const struct request *it)
{
    for (const struct request *other = guest->requests; other < guest->requests + PLACES && guest->depth > 1; other++)
        if (other->is_open && other->asks && it->asks && (other->type != IN || it->type != IN) &&
            other->sector < it->sector + it->count && it->sector < other->sector + other->count)
            return false;
    return true;
}

/* Draws a request: mostly one that is served, now and then of no such type or past the end. */
static struct request draw(struct guest *guest)
{
    static const uint32_t types[] = { IN, IN, IN, OUT, OUT, OUT, FLUSH, GET_ID, WRITE_ZEROES, 2 };
    struct request it = { .type = types[chance(guest, 10)], .sector = chance(guest, SECTORS + 1), .is_open = true };
    it.count = it.type == FLUSH ? 0 : (uint32_t)chance(guest, MOST + 1);
    bool moves = it.type == IN || it.type == OUT || it.type == WRITE_ZEROES;
    it.asks = it.type == FLUSH || (moves && it.sector + it.count <= SECTORS);
    it.refused = it.type == 2 ? UNSUPP : it.type == GET_ID ? OK : IOERR;
    return stands_beside_others(guest, &it) ? it : draw(guest);
}

/* Whether the device writes the data of a request, and how many bytes they are. */
static bool is_read(const struct request *it)
{
    return it->type == IN || it->type == GET_ID;
}

static uint32_t data_len(const struct request *it)
{
    return it->type == GET_ID ? 20 : it->type == WRITE_ZEROES ? 16 : it->count * SECTOR;
}

/* A place that is free: there is one. */
static unsigned free_place(struct guest *guest)
{
    unsigned place = (unsigned)chance(guest, PLACES);
    while (guest->requests[place].is_open)
        place = (place + 1) % PLACES;
    return place;
}

static void offer(struct guest *guest)
{
    unsigned place = free_place(guest);
    uint16_t number = guest->offered++, head = (uint16_t)(4 * place);
    struct request it = draw(guest);
    struct { uint32_t type, reserved; uint64_t sector; } header = { it.type, 0, it.sector };
    struct { uint64_t sector; uint32_t count, flags; } zeroed = { it.sector, it.count, 0 };
    uint32_t at = HEADERS + 32 * place;
    uint8_t *data = data_of(guest, place);
    it.number = number;
    guest->requests[place] = it;
    guest->order[number % RING] = place;
    memcpy(guest->memory + at, &header, sizeof header);
    guest->memory[at + 16] = 0xff;
    memset(data, (int)chance(guest, 256), MOST * SECTOR);
    if (it.type == WRITE_ZEROES)
        memcpy(data, &zeroed, sizeof zeroed);
    describe(guest, head, MEMORY + at, sizeof header, 1);
    describe(guest, head + 1u, address_of(guest, data), data_len(&it), is_read(&it) ? 3 : 1);
    describe(guest, head + 2u, MEMORY + at + 16, 1, 2);
    memcpy(guest->memory + AVAIL + 4 + 2 * (number % RING), &head, sizeof head);
    memcpy(guest->memory + AVAIL + 2, &guest->offered, sizeof guest->offered);
}

/* What a request that is done leaves in mind, or must have found there. */
static void end_well(struct guest *guest, unsigned place)
{
    const struct request *it = &guest->requests[place];
    const uint8_t *data = data_of(guest, place);
    for (uint32_t i = 0; it->asks && it->type != FLUSH && i < it->count; i++) {
        uint8_t *mind = guest->mind + (it->sector + i) * SECTOR;
        if (it->type == IN)
            need(!guest->is_known[it->sector + i] || memcmp(mind, data + i * SECTOR, SECTOR) == 0, "other data", it->sector);
        else if (it->type == OUT)
            memcpy(mind, data + i * SECTOR, SECTOR);
        else
            memset(mind, 0, SECTOR);
        guest->is_known[it->sector + i] |= it->type != IN;
    }
    need(it->type != GET_ID || memcmp(data, "drivers", 7) == 0, "another identity", data[0]);
}

/* A write that failed may have been done: its sectors aren't known. */
static void end_badly(struct guest *guest, const struct request *it)
{
    for (uint32_t i = 0; it->asks && (it->type == OUT || it->type == WRITE_ZEROES) && i < it->count; i++)
        guest->is_known[it->sector + i] = false;
}

/* The used len (2.7.8.2): the data of a read and the status, where all was written; else what was written at the front. */
static uint32_t used_len(const struct request *it, uint8_t status)
{
    uint32_t room = is_read(it) ? data_len(it) : 0;
    return status == OK || room == 0 ? room + 1 : 0;
}

/* Takes back what the device has used: what ended, in this order. */
static void take_back(struct guest *guest)
{
    struct { uint32_t id, len; } entry;
    uint16_t idx;
    memcpy(&idx, guest->memory + USED + 2, sizeof idx);
    need(idx == guest->ended_len, "another used idx", idx);
    for (; guest->used != idx; guest->used++, guest->done++) {
        unsigned place = guest->ended[guest->used % RING];
        struct request *it = &guest->requests[place];
        uint8_t status = guest->memory[HEADERS + 32 * place + 16], wanted = it->asks ? it->verdict : it->refused;
        memcpy(&entry, guest->memory + USED + 4 + 8 * (guest->used % RING), sizeof entry);
        need(it->is_open && entry.id == 4 * place, "another chain is used", entry.id);
        need(status == wanted && entry.len == used_len(it, status), "another status or used len", status << 16 | entry.len);
        if (status == OK)
            end_well(guest, place);
        else
            end_badly(guest, it);
        it->is_open = false;
        guest->counted.chains++;
        guest->counted.bytes_in += entry.len;
        guest->counted.bytes_out += 16 + (is_read(it) ? 0 : data_len(it)); /* its header, and data that the device reads */
    }
    set(guest, 0x64, 1);
}

/* A store, which is made again behind the completion where it waits for the disk. */
static void set(struct guest *guest, uint16_t offset, uint32_t value)
{
    struct kalyubos_pending pending;
    uint32_t answer;
    while ((answer = kalyubos_write(guest->board, guest->slot, KALYUBOS_BLOCK, offset, 4, value, &pending)) == KALYUBOS_BUSY) {
        need(guest->begun != 0 && offset == 0x70, "a store is busy", offset);
        complete(guest);
        take_back(guest);
    }
    need(answer != KALYUBOS_IO || offset == 0x50, "a store asks", offset);
    guest->counted.notifies += offset == 0x50;
    take_answer(guest, answer);
}

/* Leaves these bytes alone, or writes over them. */
static void scramble(struct guest *guest, uint8_t *at, uint32_t len)
{
    bool is_left = chance(guest, 2);
    for (uint32_t i = 0; i < len && !is_left; i++)
        at[i] = (uint8_t)chance(guest, chance(guest, 2) ? 4 : 256);
}

/* Writes over parts of a request in flight, but for its data and status. It was judged when it began, and is done as it was then. */
static void rewrite(struct guest *guest)
{
    const struct flight *flight = &guest->flights[some_tag(guest)];
    uint16_t number = guest->requests[flight->place].number;
    scramble(guest, guest->memory + TABLE + 16 * 4 * flight->place, 3 * 16);
    if ((uint16_t)(guest->offered - number) <= RING) /* else another stands there */
        scramble(guest, guest->memory + AVAIL + 4 + 2 * (number % RING), 2);
    scramble(guest, guest->memory + HEADERS + 32 * flight->place, 16);
    if (flight->operation.kind == KALYUBOS_ZEROES)
        scramble(guest, data_of(guest, flight->place), 16);
}

/* Moves the bytes of an operation, which stays in flight. */
static void move_some(struct guest *guest)
{
    struct flight *flight = &guest->flights[some_tag(guest)];
    if (!flight->is_moved)
        move(guest, flight);
}

/* The driver resets its device, and forgets what is open: of that nothing was begun, or the host gave it up. */
static void reset(struct guest *guest)
{
    set(guest, 0x70, 0);
    take_back(guest);
    for (int place = 0; place < PLACES; place++)
        guest->requests[place].is_open = false;
    bring_up(guest);
}

/* The host gives up what is in flight. Each operation may have been done, or not at all. */
static void drop(struct guest *guest)
{
    struct kalyubos_pending pending;
    bool is_due = guest->begun != 0;
    take_back(guest);
    for (uint8_t tag = 0; tag < guest->depth && tag < PLACES; tag++) {
        if ((guest->begun >> tag & 1) == 0)
            continue;
        if (!guest->flights[tag].is_moved && chance(guest, 2))
            move(guest, &guest->flights[tag]);
        end_badly(guest, &guest->requests[guest->flights[tag].place]);
        guest->dropped++;
    }
    guest->begun = 0;
    if (is_due)
        guest->taken = guest->offered; /* nothing more is taken before a reset */
    uint32_t answer = kalyubos_drop(guest->board, guest->slot, KALYUBOS_BLOCK, &pending);
    need(answer == (is_due ? KALYUBOS_DONE : KALYUBOS_IDLE), "a drop", answer);
    need(!is_due || (pending.block & 2) != 0, "a drop that asks for no reset", pending.block);
    if (is_due)
        reset(guest);
}

static void hold(struct guest *guest)
{
    struct kalyubos_pending pending;
    uint32_t answer = kalyubos_hold(guest->board, guest->slot, KALYUBOS_BLOCK, &pending);
    need(answer == (guest->held ? KALYUBOS_IDLE : KALYUBOS_DONE), "a hold", answer);
    guest->held = true;
}

static void release(struct guest *guest)
{
    struct kalyubos_pending pending;
    uint32_t answer = kalyubos_release(guest->board, guest->slot, KALYUBOS_BLOCK, &pending);
    need((answer == KALYUBOS_IDLE) == !guest->held, "a release", answer);
    guest->held = false;
    if (answer != KALYUBOS_IDLE)
        take_answer(guest, answer);
}

/* How many requests are open. */
static unsigned open_requests(const struct guest *guest)
{
    unsigned open = 0;
    for (int place = 0; place < PLACES; place++)
        open += guest->requests[place].is_open;
    return open;
}

static void turn(struct guest *guest)
{
    switch (chance(guest, 8)) {
    case 0: case 1: case 2:
        for (uint64_t i = chance(guest, 4); i > 0 && open_requests(guest) < PLACES; i--)
            offer(guest);
        set(guest, 0x50, 0);
        break;
    case 3: case 4: case 5:
        if (guest->begun != 0)
            complete(guest);
        complete_nothing(guest);
        break;
    case 6:
        if (guest->begun != 0 && chance(guest, 2))
            rewrite(guest);
        else if (guest->begun != 0)
            move_some(guest);
        take_back(guest);
        break;
    default:
        switch (chance(guest, 20)) {
        case 0: case 1: reset(guest); break;
        case 2: drop(guest); break;
        case 3: case 4: hold(guest); break;
        case 5: case 6: case 7: case 8: release(guest); break;
        }
    }
    guest->turns--;
}

/* ---- all on one board, and each on a thread */

static struct guest guests[GUESTS];

static uint32_t depth_of(uint64_t number)
{
    return DEPTHS[number / 2 % (sizeof DEPTHS / sizeof *DEPTHS)];
}

static void power_on(struct guest *guest, struct kalyubos *board, uint8_t slot, uint64_t number)
{
    size_t len;
    *guest = (struct guest){ .board = board, .slot = slot, .state = 0x9e3779b97f4a7c15 * (number + 1), .turns = TURNS,
                             .can_flush = number % 2, .depth = depth_of(number) };
    need(kalyubos_memory(board, slot, MEMORY, &guest->memory, &len) == KALYUBOS_DONE, "memory", slot);
    need(kalyubos_memory(board, slot, DATA, &guest->data, &len) == KALYUBOS_DONE, "memory", slot);
    for (size_t i = 0; i < sizeof guest->disk; i++)
        guest->disk[i] = guest->mind[i] = (uint8_t)chance(guest, 256);
    memset(guest->is_known, true, sizeof guest->is_known);
    bring_up(guest);
}

static void end_all_requests(struct guest *guest)
{
    release(guest);
    while (guest->begun != 0)
        complete(guest);
    take_back(guest);
    need(guest->used == guest->offered, "requests are left", guest->offered);
}

/* A sane driver meets no fault, and its board has no budget: nothing pauses. */
static void compare_counters(struct guest *guest)
{
    struct kalyubos_counters it;
    need(kalyubos_counters(guest->board, guest->slot, &it) == KALYUBOS_DONE, "counters", guest->slot);
    need(memcmp(&it, &guest->counted, sizeof it) == 0, "other counters", it.chains);
}

static void *run(void *user)
{
    struct guest *guest = user;
    while (guest->turns != 0)
        turn(guest);
    end_all_requests(guest);
    compare_counters(guest);
    return NULL;
}

static const struct kalyubos_slot SLOT = {
    .size = sizeof SLOT, .regions = { { MEMORY, MEMORY_LEN }, { DATA, DATA_LEN } }, .count = SECTORS, .cols = 80,
    .rows = 25, .outlet = 64, .hosted = true, .identity = "drivers",
};

static void run_together(uint64_t seed)
{
    struct kalyubos board = { NULL };
    struct kalyubos_slot slots[GUESTS];
    struct guest host = { .state = 0x2545f4914f6cdd1d * (seed + 1) };
    for (int i = 0; i < GUESTS; i++) {
        slots[i] = SLOT;
        slots[i].depth = depth_of(GUESTS * seed + (uint64_t)i);
    }
    make(&board, kalyubos_config_of(slots, GUESTS));
    for (uint8_t i = 0; i < GUESTS; i++)
        power_on(&guests[i], &board, i, GUESTS * seed + i);
    for (unsigned left = GUESTS * TURNS; left != 0; left--) {
        size_t next = chance(&host, GUESTS);
        while (guests[next].turns == 0)
            next = (next + 1) % GUESTS;
        turn(&guests[next]);
    }
    for (int i = 0; i < GUESTS; i++)
        run(&guests[i]);
    end(&board);
}

static void run_on_threads(uint64_t seed)
{
    struct kalyubos boards[GUESTS] = { { NULL } };
    pthread_t threads[GUESTS];
    for (int i = 0; i < GUESTS; i++) {
        struct kalyubos_slot slot = SLOT;
        slot.depth = depth_of(GUESTS * seed + (uint64_t)i);
        make(&boards[i], kalyubos_config_of(&slot, 1));
        power_on(&guests[i], &boards[i], 0, GUESTS * seed + (uint64_t)i);
    }
    for (int i = 0; i < GUESTS; i++)
        need(pthread_create(&threads[i], NULL, run, &guests[i]) == 0, "no thread", seed);
    for (int i = 0; i < GUESTS; i++)
        need(pthread_join(threads[i], NULL) == 0, "no end of a thread", seed);
    end_all(boards, GUESTS);
}

/* How many requests were used, and how many operations failed and were dropped. */
static uint64_t done, failures, dropped;

static void count(void)
{
    for (int i = 0; i < GUESTS; i++) {
        done += guests[i].done;
        failures += guests[i].failures;
        dropped += guests[i].dropped;
    }
}

int main(int argc, char **argv)
{
    uint64_t seeds = argc > 1 ? strtoull(argv[1], NULL, 10) : 1000;
    for (uint64_t seed = 0; seed < seeds; seed++) {
        run_together(seed);
        count();
        run_on_threads(seed);
        count();
    }
    printf("drivers: %" PRIu64 " seeds, %d guests each: each of %" PRIu64 " requests ended as its host said and was counted, %"
           PRIu64 " operations failed, and %" PRIu64 " were dropped\n", seeds, GUESTS, done, failures, dropped);
    return 0;
}
