/*
 * Operations are asked for again after each event, and with room for fewer runs. Each has to be as it was told first, its runs
 * inside the guest's memory, or of a ZEROES inside its disk, and its bytes inside the disk. Those that are in flight are those
 * that began and were neither completed nor dropped. None begins while the slot is held.
 */
#include "sessions.h"

#include <stdlib.h>
#include <string.h>

#include "shut_heap.h"

enum { SECTOR = 512, MOST_AT_END = 100 };

void open_disk(struct seat *seat, const uint8_t *bytes, uint32_t depth, bool is_hostile)
{
    size_t len = (size_t)seat->guest->count * SECTOR;
    seat->disk = calloc(1, sizeof *seat->disk);
    need(seat->disk != NULL && (seat->disk->bytes = malloc(len + 1)) != NULL, "no memory", len);
    memcpy(seat->disk->bytes, bytes, len);
    seat->disk->depth = depth;
    seat->disk->flights = calloc(depth, sizeof *seat->disk->flights);
    need(seat->disk->flights != NULL, "no memory", depth);
    seat->disk->is_hostile = is_hostile;
}

void close_disk(struct seat *seat)
{
    free(seat->disk->flights);
    free(seat->disk->bytes);
    free(seat->disk);
}

static bool is_begun(const struct disk *disk, uint32_t tag)
{
    return tag < KALYUBOS_TAGS && (disk->begun >> tag & 1) != 0;
}

/* The tag of an operation in flight, by chance: there is one. */
static uint8_t some_tag(struct seat *seat)
{
    uint64_t rest = seat->disk->begun;
    for (uint64_t others = chance(seat, (uint64_t)__builtin_popcountll(rest)); others > 0; others--)
        rest &= rest - 1;
    return (uint8_t)__builtin_ctzll(rest);
}

/* ---- what is told of an operation */

static bool is_inside(uint64_t start, uint64_t len, uint64_t first, uint64_t size)
{
    return start >= first && len <= size && start - first <= size - len;
}

static void check_inside(const struct seat *seat, const struct flight *flight)
{
    const struct kalyubos_operation *asked = &flight->asked;
    const struct guest *guest = seat->guest;
    uint64_t disk_len = guest->count * SECTOR, len = 0;
    bool is_of_disk = asked->kind == KALYUBOS_ZEROES;
    need(asked->kind <= KALYUBOS_ZEROES && asked->runs <= KALYUBOS_RUNS, "no such operation", asked->kind);
    for (uint32_t i = 0; i < asked->runs; i++) {
        const struct kalyubos_run *run = &flight->runs[i];
        need(run->len != 0, "an empty run", i);
        need(is_of_disk ? is_inside(run->at, run->len, 0, disk_len) : is_in_memory(guest, run->at, run->len),
             "a run lies outside", run->at);
        len += is_of_disk ? 0 : run->len;
    }
    need(asked->len == len && is_inside(asked->start, len, 0, disk_len), "the bytes lie outside the disk", len);
    need(!guest->read_only || asked->kind == KALYUBOS_IN || asked->kind == KALYUBOS_FLUSH,
         "a disk that is only read is written", asked->kind);
}

static bool is_same(const struct kalyubos_operation *a, const struct kalyubos_operation *b)
{
    return a->kind == b->kind && a->runs == b->runs && a->start == b->start && a->len == b->len && a->stable == b->stable;
}

/* Asks with room for `room` runs; the others stay as they are. */
static void ask_again(struct seat *seat, uint8_t tag, size_t room)
{
    struct kalyubos_operation operation = { 0 };
    struct kalyubos_run runs[KALYUBOS_RUNS];
    memset(runs, 0xaa, sizeof runs);
    uint32_t answer = kalyubos_operation(seat->board, seat->slot, KALYUBOS_BLOCK, tag, &operation, runs, room);
    if (!is_begun(seat->disk, tag)) {
        need(answer == KALYUBOS_IDLE, "something is in flight", tag);
        return;
    }
    const struct flight *flight = &seat->disk->flights[tag];
    size_t told = room < flight->asked.runs ? room : flight->asked.runs;
    need(answer == KALYUBOS_DONE, "nothing is in flight", tag);
    need(is_same(&operation, &flight->asked) && memcmp(runs, flight->runs, told * sizeof *runs) == 0,
         "an operation is told otherwise than before", tag);
    for (const uint8_t *at = (const uint8_t *)(runs + told); at < (const uint8_t *)(runs + KALYUBOS_RUNS); at++)
        need(*at == 0xaa, "a run is told that isn't there", told);
}

/* Asks for all that is in flight, for the lowest tag that isn't, and for one that there isn't. */
static void ask_all(struct seat *seat, size_t room)
{
    uint64_t tags = 0, begun = seat->disk->begun;
    need(kalyubos_in_flight(seat->board, seat->slot, KALYUBOS_BLOCK, &tags) == KALYUBOS_DONE && tags == begun, "other tags", tags ^ begun);
    for (uint64_t rest = begun; rest != 0; rest &= rest - 1)
        ask_again(seat, (uint8_t)__builtin_ctzll(rest), room);
    ask_again(seat, (uint8_t)(~begun == 0 ? KALYUBOS_TAGS : __builtin_ctzll(~begun)), room);
    ask_again(seat, (uint8_t)seat->disk->depth, room);
}

static void begin(struct seat *seat, uint8_t tag)
{
    struct flight *flight = &seat->disk->flights[tag];
    need(tag < seat->disk->depth, "a tag beyond the depth", tag);
    need(kalyubos_operation(seat->board, seat->slot, KALYUBOS_BLOCK, tag, &flight->asked, flight->runs, KALYUBOS_RUNS) == KALYUBOS_DONE,
         "nothing is in flight", tag);
    seat->disk->begun |= (uint64_t)1 << tag;
    seat->counts.operations++;
    check_inside(seat, flight);
    tell_number(&seat->told, tag);
    tell_number(&seat->told, (uint64_t)flight->asked.kind << 1 | flight->asked.stable);
    tell_number(&seat->told, flight->asked.start);
    tell_number(&seat->told, flight->asked.len);
    tell(&seat->told, flight->runs, flight->asked.runs * sizeof *flight->runs);
}

void take_answer(struct seat *seat, uint32_t answer)
{
    uint64_t tags = 0, before = seat->disk->begun;
    if (answer == KALYUBOS_IO) {
        need(kalyubos_in_flight(seat->board, seat->slot, KALYUBOS_BLOCK, &tags) == KALYUBOS_DONE, "in_flight", answer);
        need((before & ~tags) == 0 && tags != before, "nothing began", tags);
        need(!seat->disk->held, "an operation of a held slot", tags);
        for (uint64_t rest = tags & ~before; rest != 0; rest &= rest - 1)
            begin(seat, (uint8_t)__builtin_ctzll(rest));
    }
    ask_all(seat, KALYUBOS_RUNS);
}

/* ---- what the host does */

/* Where the byte of an address of the guest's memory lies. */
static uint8_t *place_of_byte(const struct seat *seat, uint64_t addr)
{
    uint8_t *at;
    size_t len;
    need(kalyubos_memory(seat->board, seat->slot, addr, &at, &len) == KALYUBOS_DONE, "memory", addr);
    return at;
}

/* Moves the bytes of the runs from `first` on and before `end`. */
static void transfer(struct seat *seat, const struct flight *flight, uint32_t first, uint32_t end)
{
    uint8_t *bytes = seat->disk->bytes + flight->asked.start;
    uint32_t kind = flight->asked.kind;
    for (uint32_t i = 0; i < end; i++) {
        const struct kalyubos_run *run = &flight->runs[i];
        uint8_t *at = kind == KALYUBOS_ZEROES ? NULL : place_of_byte(seat, run->at);
        if (kind == KALYUBOS_ZEROES)
            memset(seat->disk->bytes + run->at, 0, run->len);
        else if (i >= first)
            memcpy(kind == KALYUBOS_IN ? at : bytes, kind == KALYUBOS_IN ? bytes : at, run->len);
        bytes += kind == KALYUBOS_ZEROES ? 0 : run->len;
    }
}

static void complete_tag(struct seat *seat, uint8_t tag, bool failed)
{
    struct disk *disk = seat->disk;
    struct kalyubos_pending pending = { 0 };
    bool begun = is_begun(disk, tag);
    uint32_t answer = kalyubos_completed(seat->board, seat->slot, KALYUBOS_BLOCK, tag, failed, &pending);
    need((answer == KALYUBOS_IDLE) == !begun, "a completion", answer);
    need(answer == KALYUBOS_DONE || answer == KALYUBOS_IO || answer == KALYUBOS_IDLE, "an answer to a completion", answer);
    if (begun)
        disk->begun &= ~((uint64_t)1 << tag);
    tell_number(&seat->told, answer);
    tell_pending(&seat->told, &pending);
    take_answer(seat, answer);
}

void complete(struct seat *seat)
{
    if (seat->disk->begun == 0 || chance(seat, 16) == 0) {
        uint8_t tag = (uint8_t)chance(seat, chance(seat, 2) ? KALYUBOS_TAGS : 256);
        if (!is_begun(seat->disk, tag))
            complete_tag(seat, tag, false);
        return;
    }
    uint8_t tag = some_tag(seat);
    const struct flight *flight = &seat->disk->flights[tag];
    bool failed = chance(seat, 8) == 0;
    transfer(seat, flight, 0, failed ? (uint32_t)chance(seat, (uint64_t)flight->asked.runs + 1) : flight->asked.runs);
    seat->counts.failures += failed;
    complete_tag(seat, tag, failed);
}

/* What the host says of the disk beside completions: `is_due` where there is something to do. */
static bool say(struct seat *seat, uint32_t (*call)(struct kalyubos *, uint8_t, uint8_t, struct kalyubos_pending *), bool is_due)
{
    struct kalyubos_pending pending = { 0 };
    uint32_t answer = call(seat->board, seat->slot, KALYUBOS_BLOCK, &pending);
    need((answer == KALYUBOS_IDLE) == !is_due, "what the host says is idle", answer);
    need(answer == KALYUBOS_IDLE || answer == KALYUBOS_DONE || (answer == KALYUBOS_IO && call == kalyubos_release),
         "an answer to what the host says", answer);
    tell_number(&seat->told, answer);
    tell_pending(&seat->told, &pending);
    if (call == kalyubos_drop && is_due) {
        uint32_t status = 0;
        need(kalyubos_read(seat->board, seat->slot, KALYUBOS_BLOCK, 0x070, 4, &status) == KALYUBOS_DONE, "a read", answer);
        need((status & 0x40) != 0 && (pending.block & 2) != 0, "a drop asks for no reset", status);
    }
    return answer == KALYUBOS_IO;
}

void drop(struct seat *seat)
{
    bool is_due = seat->disk->begun != 0;
    seat->disk->begun = 0;
    seat->counts.drops += is_due;
    say(seat, kalyubos_drop, is_due);
    take_answer(seat, KALYUBOS_DONE);
}

static void hold(struct seat *seat)
{
    seat->counts.holds += !seat->disk->held;
    say(seat, kalyubos_hold, !seat->disk->held);
    seat->disk->held = true;
}

static void release(struct seat *seat)
{
    bool was_held = seat->disk->held;
    seat->disk->held = false;
    take_answer(seat, say(seat, kalyubos_release, was_held) ? KALYUBOS_IO : KALYUBOS_DONE);
}

/* Writes over some bytes of a region's first part, where queues, tables and headers lie, or of a run. */
static void scribble(struct seat *seat)
{
    const struct flight *flight = &seat->disk->flights[some_tag(seat)];
    const struct region *region = &seat->guest->regions[seat->guest->regions_len > 1 ? chance(seat, seat->guest->regions_len) : 0];
    uint64_t at = region->base + chance(seat, region->len < 0x6000 ? region->len : 0x6000), len = 1 + chance(seat, 64);
    size_t left;
    uint8_t *bytes;
    if (flight->asked.runs != 0 && flight->asked.kind != KALYUBOS_ZEROES && chance(seat, 3) == 0)
        at = flight->runs[chance(seat, flight->asked.runs)].at;
    need(kalyubos_memory(seat->board, seat->slot, at, &bytes, &left) == KALYUBOS_DONE, "memory", at);
    for (uint64_t i = 0; i < len && i < left; i++)
        bytes[i] = (uint8_t)chance(seat, chance(seat, 2) ? 4 : 256);
}

/* Moves the bytes of one run of a read, which stays in flight. */
static void transfer_some(struct seat *seat)
{
    const struct flight *flight = &seat->disk->flights[some_tag(seat)];
    if (flight->asked.kind != KALYUBOS_IN || flight->asked.runs == 0)
        return;
    uint32_t run = (uint32_t)chance(seat, flight->asked.runs);
    transfer(seat, flight, run, run + 1);
}

void serve_by_chance(struct seat *seat)
{
    struct disk *disk = seat->disk;
    ask_all(seat, chance(seat, 4) == 0 ? chance(seat, KALYUBOS_RUNS + 1) : KALYUBOS_RUNS);
    switch (chance(seat, 16)) {
    case 0: case 1: case 2: case 3: case 4: case 5: case 6:
        complete(seat);
        break;
    case 7: case 8:
        if (disk->begun != 0)
            transfer_some(seat);
        break;
    case 9:
        if (disk->begun != 0 && disk->is_hostile)
            scribble(seat);
        break;
    case 10:
        if (chance(seat, 4) == 0)
            hold(seat);
        break;
    case 11: case 12:
        if (disk->held || chance(seat, 16) == 0)
            release(seat);
        break;
    case 13:
        if (chance(seat, 4) == 0)
            drop(seat);
        break;
    default:
        break;
    }
    ask_all(seat, KALYUBOS_RUNS);
}

void tell_disk(struct seat *seat)
{
    release(seat);
    for (int i = 0; i < MOST_AT_END && seat->disk->begun != 0; i++)
        complete(seat);
    tell(&seat->told, seat->disk->bytes, (size_t)seat->guest->count * SECTOR);
}
